/* lengths W H: with every length as the header's macros give it, and with one at a time too short, or not exact. */
#include <stdio.h>
#include <stdlib.h>
#include <string.h>

#include "color_clusters.h"

static void print(const char *what, uint32_t number)
{
    printf("%s: %s\n", what, color_clusters_refusal_name(number));
}

static void *block(size_t bytes)
{
    void *found = malloc(bytes);
    if (found == NULL) {
        fprintf(stderr, "no memory\n");
        exit(1);
    }
    /* What a block holds beforehand is to make no difference. */
    memset(found, 0xa5, bytes);
    return found;
}

static uint32_t *numbers(size_t len)
{
    return (uint32_t *)block(len * sizeof(uint32_t));
}

/* A run and painting with these lengths. */
static color_clusters_answer run(
    const char *what, uint32_t w, uint32_t h, const uint8_t *image, size_t image_len,
    const color_clusters_buffers *buffers, uint8_t *picture, size_t picture_len)
{
    const color_clusters_settings settings = COLOR_CLUSTERS_DEFAULTS;
    const color_clusters_answer answer = color_clusters_run_and_paint_with(
        &settings, w, h, image, image_len, buffers, picture, picture_len);
    print(what, answer.number);
    return answer;
}

int main(int count, char **words)
{
    const uint32_t w = count == 3 ? (uint32_t)strtoul(words[1], NULL, 10) : 0;
    const uint32_t h = count == 3 ? (uint32_t)strtoul(words[2], NULL, 10) : 0;
    const size_t pixels = COLOR_CLUSTERS_PIXELS(w, h);
    const size_t image_len = COLOR_CLUSTERS_IMAGE_LEN(pixels), picture_len = COLOR_CLUSTERS_PICTURE_LEN(pixels);
    const size_t block_len = COLOR_CLUSTERS_BLOCK_LEN(pixels);
    uint32_t *const whole = numbers(block_len);
    uint8_t *const image = (uint8_t *)block(image_len + 1), *const picture = (uint8_t *)block(picture_len + 1);
    color_clusters_buffers exact, sheet;
    color_clusters_answer answer;
    size_t stored_len;
    uint8_t *stored;

    exact.labels_len = COLOR_CLUSTERS_LABELS_LEN(pixels);
    exact.links_len = COLOR_CLUSTERS_LINKS_LEN(pixels);
    exact.table_len = COLOR_CLUSTERS_TABLE_LEN(pixels);
    exact.outputs_len = COLOR_CLUSTERS_OUTPUTS_LEN(pixels);
    exact.work_len = COLOR_CLUSTERS_WORK_LEN(pixels);
    exact.labels = numbers(exact.labels_len);
    exact.links = numbers(exact.links_len);
    exact.table = numbers(exact.table_len);
    exact.outputs = numbers(exact.outputs_len);
    exact.work = numbers(exact.work_len);

    run("image less 1", w, h, image, image_len - 1, &exact, picture, picture_len);
    run("image plus 1", w, h, image, image_len + 1, &exact, picture, picture_len);
    run("picture less 1", w, h, image, image_len, &exact, picture, picture_len - 1);
    run("picture plus 1", w, h, image, image_len, &exact, picture, picture_len + 1);
    sheet = exact;
    sheet.labels_len -= 1;
    run("labels less 1", w, h, image, image_len, &sheet, picture, picture_len);
    sheet = exact;
    sheet.links_len -= 1;
    run("links less 1", w, h, image, image_len, &sheet, picture, picture_len);
    sheet = exact;
    sheet.table_len -= 1;
    run("table less 1", w, h, image, image_len, &sheet, picture, picture_len);
    sheet = exact;
    sheet.outputs_len -= 1;
    run("outputs less 1", w, h, image, image_len, &sheet, picture, picture_len);
    sheet = exact;
    sheet.work_len -= 1;
    run("work less 1", w, h, image, image_len, &sheet, picture, picture_len);
    sheet = color_clusters_buffers_in(whole, block_len, pixels);
    run("block", w, h, image, image_len, &sheet, picture, picture_len);
    answer = run("exact", w, h, image, image_len, &exact, picture, picture_len);

    stored_len = COLOR_CLUSTERS_STORED_LEN(pixels, answer.n, answer.m);
    stored = (uint8_t *)block(stored_len + 1);
    print("paint", color_clusters_paint_with(w, h, &exact, answer, picture, picture_len));
    print("last row", color_clusters_row_check(w, h, picture, picture_len, h - 1));
    print("destination less 1", color_clusters_store_with(w, h, &exact, answer, stored, stored_len - 1));
    print("destination plus 1", color_clusters_store_with(w, h, &exact, answer, stored, stored_len + 1));
    print("store", color_clusters_store_with(w, h, &exact, answer, stored, stored_len));

    free(whole);
    free(image);
    free(picture);
    free(exact.labels);
    free(exact.links);
    free(exact.table);
    free(exact.outputs);
    free(exact.work);
    free(stored);
    return 0;
}
