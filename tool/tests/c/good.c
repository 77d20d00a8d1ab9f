/* Uses without a fault, which compile without a warning. The tests put one fault at a time into this file. */
#include <stdlib.h>

#include "color_clusters.h"

enum { W = 2, H = 2, PIXELS = W * H };

static COLOR_CLUSTERS_ROOM(PIXELS) room;

uint32_t by_room(uint32_t w, uint32_t h);
uint32_t by_arrays(const uint8_t *image);
uint32_t by_block(const uint8_t *image);
uint32_t by_pointers(
    const color_clusters_settings *settings, uint32_t w, uint32_t h, const uint8_t *image, size_t image_len,
    const color_clusters_buffers *buffers, uint8_t *picture, size_t picture_len);

uint32_t by_room(uint32_t w, uint32_t h)
{
    const uint8_t image[COLOR_CLUSTERS_IMAGE_LEN(PIXELS)] = {0};
    uint8_t picture[COLOR_CLUSTERS_PICTURE_LEN(PIXELS)];
    color_clusters_settings settings = COLOR_CLUSTERS_DEFAULTS;
    color_clusters_buffers buffers = COLOR_CLUSTERS_LEND(room);
    color_clusters_answer answer;
    uint32_t number;

    settings.key_color.r = 255;
    settings.keying_action = COLOR_CLUSTERS_DISCARD;
    answer = color_clusters_run_with(&settings, w, h, image, COLOR_CLUSTERS_IMAGE_LEN(PIXELS), &buffers);
    number = color_clusters_paint_with(w, h, &buffers, answer, picture, COLOR_CLUSTERS_PICTURE_LEN(PIXELS));
    if (number != COLOR_CLUSTERS_ACCEPTED) {
        return number;
    }
    return image[0] + picture[0] + buffers.table[color_clusters_at(buffers.outputs[0], COLOR_CLUSTERS_PIXEL_COUNT)];
}

uint32_t by_arrays(const uint8_t *image)
{
    const color_clusters_settings settings = COLOR_CLUSTERS_DEFAULTS;
    uint32_t labels[COLOR_CLUSTERS_LABELS_LEN(PIXELS)];
    uint32_t links[COLOR_CLUSTERS_LINKS_LEN(PIXELS)];
    uint32_t table[COLOR_CLUSTERS_TABLE_LEN(PIXELS)];
    uint32_t outputs[COLOR_CLUSTERS_OUTPUTS_LEN(PIXELS)];
    uint32_t work[COLOR_CLUSTERS_WORK_LEN(PIXELS)];
    uint8_t painted[COLOR_CLUSTERS_PICTURE_LEN(PIXELS)];
    color_clusters_buffers buffers;
    color_clusters_answer answer;

    buffers.labels = labels;
    buffers.labels_len = COLOR_CLUSTERS_LABELS_LEN(PIXELS);
    buffers.links = links;
    buffers.links_len = COLOR_CLUSTERS_LINKS_LEN(PIXELS);
    buffers.table = table;
    buffers.table_len = COLOR_CLUSTERS_TABLE_LEN(PIXELS);
    buffers.outputs = outputs;
    buffers.outputs_len = COLOR_CLUSTERS_LEN(outputs);
    buffers.work = work;
    buffers.work_len = COLOR_CLUSTERS_WORK_LEN(PIXELS);
    answer = color_clusters_run_and_paint_with(
        &settings, W, H, image, COLOR_CLUSTERS_IMAGE_LEN(PIXELS), &buffers,
        painted, COLOR_CLUSTERS_PICTURE_LEN(PIXELS));
    return answer.number == COLOR_CLUSTERS_ACCEPTED ? painted[0] : answer.number;
}

uint32_t by_block(const uint8_t *image)
{
    const color_clusters_settings settings = COLOR_CLUSTERS_DEFAULTS;
    uint32_t *const block = (uint32_t *)malloc(sizeof(uint32_t) * COLOR_CLUSTERS_BLOCK_LEN(PIXELS));
    const color_clusters_buffers buffers = color_clusters_buffers_in(block, COLOR_CLUSTERS_BLOCK_LEN(PIXELS), PIXELS);
    const color_clusters_answer answer = color_clusters_run_with(
        &settings, W, H, image, COLOR_CLUSTERS_IMAGE_LEN(PIXELS), &buffers);
    free(block);
    return answer.number;
}

/* Each function once more, so that none is inlined only because it is called once. */
uint32_t by_pointers(
    const color_clusters_settings *settings, uint32_t w, uint32_t h, const uint8_t *image, size_t image_len,
    const color_clusters_buffers *buffers, uint8_t *picture, size_t picture_len)
{
    color_clusters_answer answer = color_clusters_run_with(settings, w, h, image, image_len, buffers);
    uint32_t number = color_clusters_paint_with(w, h, buffers, answer, picture, picture_len);
    if (number == COLOR_CLUSTERS_ACCEPTED) {
        number = color_clusters_store_with(w, h, buffers, answer, picture, picture_len);
    }
    if (number == COLOR_CLUSTERS_ACCEPTED) {
        answer = color_clusters_run_and_paint_with(
            settings, w, h, image, image_len, buffers, picture, picture_len);
        number = answer.number;
    }
    return number;
}
