/* Clusters small charts with the header alone, and prints what each run left: the clusters that are painted, their
 * pixels, the rows of the picture, and the stored sheet. */
#include <inttypes.h>
#include <stdio.h>
#include <stdlib.h>

#include "color_clusters.h"

static uint32_t number_of(const color_clusters_buffers *sheet, uint32_t cluster, color_clusters_place place)
{
    return sheet->table[color_clusters_at(cluster, place)];
}

/* The pixels of a cluster in the order of its list: first pixel and links hold a pixel's number + 1. The count says
 * where the list stops, since that of a patch goes on with pixels of the cluster around it. */
static void print_pixels(const color_clusters_buffers *sheet, uint32_t cluster)
{
    uint32_t left = number_of(sheet, cluster, COLOR_CLUSTERS_PIXEL_COUNT);
    uint32_t next = number_of(sheet, cluster, COLOR_CLUSTERS_FIRST_PIXEL);
    printf("  pixels");
    for (; left > 0; left--) {
        printf(" %" PRIu32, next - 1);
        next = sheet->links[next - 1];
    }
    printf("\n");
}

/* The holes of a cluster: a chain of cluster numbers + 1. */
static void print_holes(const color_clusters_buffers *sheet, uint32_t cluster)
{
    uint32_t left = number_of(sheet, cluster, COLOR_CLUSTERS_NUM_HOLES);
    uint32_t next = number_of(sheet, cluster, COLOR_CLUSTERS_FIRST_HOLE);
    printf("  holes");
    for (; left > 0; left--) {
        printf(" %" PRIu32, next - 1);
        next = number_of(sheet, next - 1, COLOR_CLUSTERS_NEXT_HOLE);
    }
    printf("\n");
}

static void print_cluster(const color_clusters_buffers *sheet, uint32_t cluster)
{
    printf("cluster %" PRIu32 "\n", cluster);
    print_pixels(sheet, cluster);
    printf("  columns %" PRIu32 " to %" PRIu32 ", rows %" PRIu32 " to %" PRIu32 "\n",
           number_of(sheet, cluster, COLOR_CLUSTERS_LEFT), number_of(sheet, cluster, COLOR_CLUSTERS_RIGHT),
           number_of(sheet, cluster, COLOR_CLUSTERS_TOP), number_of(sheet, cluster, COLOR_CLUSTERS_BOTTOM));
    printf("  sum (%" PRIu32 ",%" PRIu32 ",%" PRIu32 ",%" PRIu32 "; %" PRIu32 ")\n",
           number_of(sheet, cluster, COLOR_CLUSTERS_SUM_R), number_of(sheet, cluster, COLOR_CLUSTERS_SUM_G),
           number_of(sheet, cluster, COLOR_CLUSTERS_SUM_B), number_of(sheet, cluster, COLOR_CLUSTERS_SUM_A),
           number_of(sheet, cluster, COLOR_CLUSTERS_SUM_COUNT));
    printf("  residue (%" PRIu32 ",%" PRIu32 ",%" PRIu32 ",%" PRIu32 "; %" PRIu32 ")\n",
           number_of(sheet, cluster, COLOR_CLUSTERS_RESIDUE_R), number_of(sheet, cluster, COLOR_CLUSTERS_RESIDUE_G),
           number_of(sheet, cluster, COLOR_CLUSTERS_RESIDUE_B), number_of(sheet, cluster, COLOR_CLUSTERS_RESIDUE_A),
           number_of(sheet, cluster, COLOR_CLUSTERS_RESIDUE_COUNT));
    printf("  merged into %" PRIu32 ", depth %" PRIu32 ", %" PRIu32 " holes\n",
           number_of(sheet, cluster, COLOR_CLUSTERS_MERGED_INTO), number_of(sheet, cluster, COLOR_CLUSTERS_DEPTH),
           number_of(sheet, cluster, COLOR_CLUSTERS_NUM_HOLES));
    print_holes(sheet, cluster);
}

/* The rows of the picture, as the library gives them. */
static uint32_t print_rows(uint32_t w, uint32_t h, const uint8_t *painted, size_t painted_len)
{
    uint32_t x, y;
    for (y = 0; y < h; y++) {
        const uint32_t number = color_clusters_row_check(w, h, painted, painted_len, y);
        if (number != COLOR_CLUSTERS_ACCEPTED) {
            return number;
        }
        printf("row %" PRIu32, y);
        for (x = 0; x < w; x++) {
            const uint8_t *pixel = painted + 4 * (w * y + x);
            printf(" (%d,%d,%d,%d)", pixel[0], pixel[1], pixel[2], pixel[3]);
        }
        printf("\n");
    }
    return COLOR_CLUSTERS_ACCEPTED;
}

/* The stored sheet, as its numbers. */
static uint32_t print_stored(uint32_t w, uint32_t h, const color_clusters_buffers *sheet, color_clusters_answer answer)
{
    const size_t stored_len = COLOR_CLUSTERS_STORED_LEN(COLOR_CLUSTERS_PIXELS(w, h), answer.n, answer.m);
    uint8_t *const stored = (uint8_t *)malloc(stored_len);
    const uint32_t number = color_clusters_store_with(w, h, sheet, answer, stored, stored_len);
    if (number == COLOR_CLUSTERS_ACCEPTED) {
        size_t i;
        printf("stored");
        for (i = 0; i < stored_len; i += 2) {
            printf(" %d", stored[i] + 256 * stored[i + 1]);
        }
        printf("\n");
    }
    free(stored);
    return number;
}

/* What a run left: labels, and the clusters that are painted. */
static void print_sheet(size_t pixels, const color_clusters_buffers *sheet, color_clusters_answer answer)
{
    size_t i;
    uint32_t entry;
    printf("n %" PRIu32 ", m %" PRIu32 "\n", answer.n, answer.m);
    printf("labels");
    for (i = 0; i < pixels; i++) {
        printf(" %" PRIu32, sheet->labels[i]);
    }
    printf("\n");
    for (entry = 0; entry < answer.m; entry++) {
        print_cluster(sheet, sheet->outputs[entry]);
    }
}

/* Clusters, paints and stores a chart: 0, or the number of the refusal. The memory is never cleared; where there is
 * none, the call that it was for is refused. */
static uint32_t show(
    const color_clusters_settings *settings, uint32_t w, uint32_t h, const uint8_t *chart, size_t chart_len)
{
    const size_t pixels = COLOR_CLUSTERS_PIXELS(w, h);
    const size_t block_len = COLOR_CLUSTERS_BLOCK_LEN(pixels), picture_len = COLOR_CLUSTERS_PICTURE_LEN(pixels);
    uint32_t *const block = (uint32_t *)malloc(sizeof(uint32_t) * block_len);
    uint8_t *const picture = (uint8_t *)malloc(picture_len);
    const color_clusters_buffers sheet = color_clusters_buffers_in(block, block_len, pixels);
    const color_clusters_answer answer = color_clusters_run_with(settings, w, h, chart, chart_len, &sheet);
    uint32_t number = color_clusters_paint_with(w, h, &sheet, answer, picture, picture_len);

    if (number == COLOR_CLUSTERS_ACCEPTED) {
        print_sheet(pixels, &sheet, answer);
        number = print_rows(w, h, picture, picture_len);
    }
    if (number == COLOR_CLUSTERS_ACCEPTED) {
        number = print_stored(w, h, &sheet, answer);
    }
    free(picture);
    free(block);
    return number;
}

/* Shows a chart under its name; 1 where it is refused. */
static int chart(const char *name, const color_clusters_settings *settings, uint32_t w, uint32_t h,
                 const uint8_t *bytes, size_t bytes_len)
{
    uint32_t number;
    printf("%s\n", name);
    number = show(settings, w, h, bytes, bytes_len);
    if (number != COLOR_CLUSTERS_ACCEPTED) {
        printf("refused: %s\n", color_clusters_refusal_name(number));
        return 1;
    }
    return 0;
}

int main(void)
{
    static const uint8_t dark[] = {10, 20, 30, 255};
    static const uint8_t black_white[] = {0, 0, 0, 255, 255, 255, 255, 255};
    static const uint8_t keyed[] = {
        255, 0, 255, 255, 255, 0, 255, 255,
        0,   0, 0,   255, 254, 0, 255, 255,
    };
    color_clusters_settings settings = COLOR_CLUSTERS_DEFAULTS;
    color_clusters_settings keying = COLOR_CLUSTERS_DEFAULTS;
    int refused = 0;

    refused |= chart("one pixel", &settings, 1, 1, dark, sizeof dark);

    settings.good_min_area = 0;
    refused |= chart("a patch inside another", &settings, 2, 1, black_white, sizeof black_white);
    settings.deepen_diff = 765;
    refused |= chart("merged", &settings, 2, 1, black_white, sizeof black_white);

    keying.key_color.r = 255;
    keying.key_color.b = 255;
    keying.key_color.a = 255;
    refused |= chart("key pixels kept", &keying, 2, 2, keyed, sizeof keyed);
    keying.keying_action = COLOR_CLUSTERS_DISCARD;
    refused |= chart("key pixels discarded", &keying, 2, 2, keyed, sizeof keyed);
    return refused;
}
