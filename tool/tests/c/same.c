/* The same results over buffers that held different bytes before, and in two threads at the same time, of images of
 * different sizes with different settings. Prints the results as one number each: all that a run and painting leave. */
#include <pthread.h>
#include <stdio.h>
#include <string.h>

#include "color_clusters.h"

enum { MOST = 40 * 30, REPEATED = 50 };

/* A sheet of its own for each thread. */
typedef struct {
    color_clusters_settings settings;
    uint32_t w, h;
    COLOR_CLUSTERS_ROOM(MOST) room;
    uint8_t image[COLOR_CLUSTERS_IMAGE_LEN(MOST)];
    uint8_t picture[COLOR_CLUSTERS_PICTURE_LEN(MOST)];
    uint32_t result;
} sheet;

static sheet one, other;

/* Noise in few colours, which differs with the seed. */
static void draw(sheet *of, uint32_t w, uint32_t h, uint32_t seed)
{
    size_t i;
    of->w = w;
    of->h = h;
    for (i = 0; i < sizeof of->image; i++) {
        seed = seed * 1664525 + 1013904223;
        of->image[i] = (uint8_t)(seed >> 30 << 6);
    }
}

static uint32_t mixed(uint32_t result, const void *bytes, size_t len)
{
    const unsigned char *const all = (const unsigned char *)bytes;
    size_t i;
    for (i = 0; i < len; i++) {
        result = (result ^ all[i]) * 16777619;
    }
    return result;
}

/* A run and painting over buffers full of this byte: what they leave, as one number, or 0 where it is refused. */
static uint32_t result_over(sheet *of, int byte)
{
    const color_clusters_buffers buffers = COLOR_CLUSTERS_LEND(of->room);
    const size_t pixels = COLOR_CLUSTERS_PIXELS(of->w, of->h), picture_len = COLOR_CLUSTERS_PICTURE_LEN(pixels);
    color_clusters_answer answer;
    uint32_t result;

    memset(&of->room, byte, sizeof of->room);
    memset(of->picture, byte, sizeof of->picture);
    answer = color_clusters_run_and_paint_with(
        &of->settings, of->w, of->h, of->image, COLOR_CLUSTERS_IMAGE_LEN(pixels), &buffers, of->picture, picture_len);
    if (answer.number != COLOR_CLUSTERS_ACCEPTED) {
        return 0;
    }
    result = mixed(answer.n * 65536 + answer.m, buffers.labels, pixels * sizeof(uint32_t));
    result = mixed(result, buffers.links, pixels * sizeof(uint32_t));
    result = mixed(result, buffers.table, color_clusters_at(answer.n, COLOR_CLUSTERS_FIRST_PIXEL) * sizeof(uint32_t));
    result = mixed(result, buffers.outputs, answer.m * sizeof(uint32_t));
    result = mixed(result, buffers.work, buffers.work_len * sizeof(uint32_t));
    return mixed(result, of->picture, picture_len);
}

/* A thread: again and again, over different bytes; the result is 0 where two differ. */
static void *repeat(void *of)
{
    sheet *const own = (sheet *)of;
    int i;
    for (i = 0; i < REPEATED; i++) {
        if (result_over(own, i) != own->result) {
            own->result = 0;
        }
    }
    return NULL;
}

int main(void)
{
    static const int bytes[] = {0, 1, 0x5a, 0xff};
    const color_clusters_settings defaults = COLOR_CLUSTERS_DEFAULTS;
    const color_clusters_settings different = {7, 0, 9, 0, 100, 3, 200, {64, 64, 64, 64}, COLOR_CLUSTERS_DISCARD};
    pthread_t thread;
    size_t i;

    one.settings = defaults;
    one.settings.good_min_area = 0;
    draw(&one, 40, 30, 1);
    other.settings = different;
    draw(&other, 23, 31, 2);
    for (i = 0; i < COLOR_CLUSTERS_LEN(bytes); i++) {
        printf("over %d: %08x %08x\n", bytes[i], result_over(&one, bytes[i]), result_over(&other, bytes[i]));
    }
    one.result = result_over(&one, 0);
    other.result = result_over(&other, 0);
    if (pthread_create(&thread, NULL, repeat, &one) != 0) {
        return 1;
    }
    repeat(&other);
    if (pthread_join(thread, NULL) != 0) {
        return 1;
    }
    printf("in threads: %08x %08x\n", one.result, other.result);
    return 0;
}
