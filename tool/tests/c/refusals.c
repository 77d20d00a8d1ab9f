/* Bad uses that compile: each comes back as a refusal, printed by its name, and changes nothing that was lent. */
#include <inttypes.h>
#include <stdio.h>
#include <stdlib.h>
#include <string.h>

#include "color_clusters.h"

enum { W = 3, H = 2, PIXELS = W * H, PICTURE_LEN = COLOR_CLUSTERS_PICTURE_LEN(PIXELS) };

/* A byte more than a picture takes, and a pool for any two that are lent. */
typedef struct {
    COLOR_CLUSTERS_ROOM(PIXELS) room;
    uint8_t image[COLOR_CLUSTERS_IMAGE_LEN(PIXELS)];
    uint8_t picture[PICTURE_LEN + 1];
    uint8_t stored[COLOR_CLUSTERS_STORED_LEN(PIXELS, PIXELS + 1, 2 * PIXELS)];
    uint32_t pool[COLOR_CLUSTERS_BLOCK_LEN(PIXELS)];
} memory;

static const uint8_t chart[COLOR_CLUSTERS_IMAGE_LEN(PIXELS)] = {200, 30, 30, 255, 20, 140, 60, 255};
static const color_clusters_settings defaults = COLOR_CLUSTERS_DEFAULTS;
static memory lent, before;
/* NULL, though the compiler cannot know it. */
static uint8_t *volatile missing;

/* Prints a number by its name, and where it is a refusal, whether anything changed. */
static void print(const char *what, uint32_t number)
{
    const int same = number == COLOR_CLUSTERS_ACCEPTED || memcmp(&lent, &before, sizeof lent) == 0;
    printf("%s: %s%s\n", what, color_clusters_refusal_name(number), same ? "" : ", and something changed");
    memcpy(&before, &lent, sizeof lent);
}

static void print_answer(const char *what, color_clusters_answer answer)
{
    print(what, answer.number);
    if (answer.number != COLOR_CLUSTERS_ACCEPTED && (answer.n != 0 || answer.m != 0)) {
        printf("%s: n and m are not 0\n", what);
    }
}

/* A good run over bytes of any value, and what it left. */
static color_clusters_answer good(const color_clusters_buffers *buffers)
{
    color_clusters_answer answer;
    memset(&lent, 0xa5, sizeof lent);
    answer = color_clusters_run_with(&defaults, W, H, chart, sizeof chart, buffers);
    memcpy(&before, &lent, sizeof lent);
    return answer;
}

/* Writes a number of a slot, or of a list. */
static void damage(uint32_t *at, uint32_t number)
{
    *at = number;
    memcpy(&before, &lent, sizeof lent);
}

static void run_of(const char *what, const color_clusters_settings *settings, uint32_t w, uint32_t h,
                   const uint8_t *image, size_t image_len)
{
    const color_clusters_buffers buffers = COLOR_CLUSTERS_LEND(lent.room);
    print_answer(what, color_clusters_run_with(settings, w, h, image, image_len, &buffers));
    print_answer("and with painting", color_clusters_run_and_paint_with(
        settings, w, h, image, image_len, &buffers, lent.picture, PICTURE_LEN));
}

static void runs(void)
{
    color_clusters_settings settings = COLOR_CLUSTERS_DEFAULTS;
    settings.is_same_color_a = 8;
    run_of("shift 8", &settings, W, H, chart, sizeof chart);
    run_of("shift 8 and no column", &settings, 0, H, chart, sizeof chart);
    settings.is_same_color_a = -1;
    run_of("shift -1", &settings, W, H, chart, sizeof chart);
    run_of("no column", &defaults, 0, H, chart, sizeof chart);
    run_of("no row", &defaults, W, 0, chart, sizeof chart);
    run_of("65536 x 65536", &defaults, 65536, 65536, chart, sizeof chart);
    run_of("bytes left out", &defaults, W, H, chart, sizeof chart - 1);
    run_of("width and height of another chart", &defaults, W + 1, H, chart, sizeof chart);
    run_of("no image", &defaults, W, H, missing, sizeof chart);
}

/* A refused run leaves nothing to paint or to store. */
static void after_a_refusal(void)
{
    const color_clusters_buffers buffers = COLOR_CLUSTERS_LEND(lent.room);
    const color_clusters_answer answer = color_clusters_run_with(&defaults, W, H, chart, 0, &buffers);
    print("painted all the same", color_clusters_paint_with(W, H, &buffers, answer, lent.picture, PICTURE_LEN));
    print("stored all the same", color_clusters_store_with(
        W, H, &buffers, answer, lent.stored, COLOR_CLUSTERS_STORED_LEN(PIXELS, answer.n, answer.m)));
}

/* Of a run with one of its buffers wrong. */
static void buffers_of(const char *what, const color_clusters_buffers *buffers)
{
    print_answer(what, color_clusters_run_with(&defaults, W, H, chart, sizeof chart, buffers));
}

static void buffers(void)
{
    const color_clusters_buffers all = COLOR_CLUSTERS_LEND(lent.room);
    color_clusters_buffers some = all;
    some.labels = NULL;
    buffers_of("no labels", &some);
    some = all;
    some.links = NULL;
    buffers_of("no links", &some);
    some = all;
    some.table = NULL;
    buffers_of("no table", &some);
    some = all;
    some.outputs = NULL;
    buffers_of("no outputs", &some);
    some = all;
    some.work = NULL;
    buffers_of("no work", &some);
    some = all;
    some.table_len = sizeof(lent.room.table[0]);
    buffers_of("the size of a number as a length", &some);
}

static void blocks(void)
{
    const size_t len = COLOR_CLUSTERS_BLOCK_LEN(PIXELS);
    /* Read and written only where it is lent. */
    const size_t large_len = COLOR_CLUSTERS_BLOCK_LEN(COLOR_CLUSTERS_LIMIT + 1);
    uint32_t *const large = (uint32_t *)malloc(sizeof(uint32_t) * large_len);
    color_clusters_buffers some = color_clusters_buffers_in((uint32_t *)(void *)missing, len, PIXELS);
    buffers_of("no block", &some);
    some = color_clusters_buffers_in(lent.pool, len - 1, PIXELS);
    buffers_of("a block one short", &some);
    some = color_clusters_buffers_in(large, large_len, COLOR_CLUSTERS_LIMIT + 1);
    buffers_of("a block above the limit", &some);
    some = color_clusters_buffers_in(large, large_len, COLOR_CLUSTERS_LIMIT);
    buffers_of("a block of the limit", &some);
    free(large);
    some = color_clusters_buffers_in(lent.pool, len, PIXELS);
    buffers_of("a block", &some);
}

/* Of two failures the first by the order of the checks, where one is an overlap. */
static void overlaps_in_order(void)
{
    const color_clusters_buffers all = COLOR_CLUSTERS_LEND(lent.room);
    color_clusters_settings settings = COLOR_CLUSTERS_DEFAULTS;
    color_clusters_buffers twice = all, some = all;
    settings.is_same_color_a = 8;
    twice.links = twice.labels;
    some.work_len = 0;
    print_answer("shift 8, labels twice", color_clusters_run_with(&settings, W, H, chart, sizeof chart, &twice));
    print_answer("no column, labels twice", color_clusters_run_with(&defaults, 0, H, chart, sizeof chart, &twice));
    print_answer("65001 x 1, labels twice", color_clusters_run_with(&defaults, 65001, 1, chart, sizeof chart, &twice));
    print_answer("no image, labels twice", color_clusters_run_with(&defaults, W, H, missing, sizeof chart, &twice));
    print_answer("labels twice, picture too long", color_clusters_run_and_paint_with(
        &defaults, W, H, chart, sizeof chart, &twice, lent.picture, PICTURE_LEN + 1));
    print_answer("no work, picture in image", color_clusters_run_and_paint_with(
        &defaults, W, H, lent.image, sizeof lent.image, &some, lent.image, PICTURE_LEN));
}

/* What a call is given. */
enum { LABELS, LINKS, TABLE, OUTPUTS, WORK, IMAGE, PICTURE, DESTINATION, GIVEN };

static const struct {
    const char *name;
    size_t bytes, element;
} given[GIVEN] = {
    {"labels", sizeof lent.room.labels, sizeof(uint32_t)}, {"links", sizeof lent.room.links, sizeof(uint32_t)},
    {"table", sizeof lent.room.table, sizeof(uint32_t)}, {"outputs", sizeof lent.room.outputs, sizeof(uint32_t)},
    {"work", sizeof lent.room.work, sizeof(uint32_t)}, {"image", sizeof lent.image, 1}, {"picture", PICTURE_LEN, 1},
    {"destination", COLOR_CLUSTERS_STORED_LEN(PIXELS, 1, 0), 1},
};

/* The calls that are given the later of two, which lie at these bytes of the pool; not all are given the earlier. */
static void calls_of(int earlier, size_t earlier_at, int later, size_t later_at)
{
    const color_clusters_answer left = {COLOR_CLUSTERS_ACCEPTED, 1, 0};
    color_clusters_buffers buffers = COLOR_CLUSTERS_LEND(lent.room);
    void *at[GIVEN];
    at[LABELS] = buffers.labels;
    at[LINKS] = buffers.links;
    at[TABLE] = buffers.table;
    at[OUTPUTS] = buffers.outputs;
    at[WORK] = buffers.work;
    at[IMAGE] = lent.image;
    at[PICTURE] = lent.picture;
    at[DESTINATION] = lent.stored;
    at[earlier] = (unsigned char *)lent.pool + earlier_at;
    at[later] = (unsigned char *)lent.pool + later_at;
    buffers.labels = (uint32_t *)at[LABELS];
    buffers.links = (uint32_t *)at[LINKS];
    buffers.table = (uint32_t *)at[TABLE];
    buffers.outputs = (uint32_t *)at[OUTPUTS];
    buffers.work = (uint32_t *)at[WORK];
    if (later <= IMAGE) {
        print_answer(" run", color_clusters_run_with(
            &defaults, W, H, (uint8_t *)at[IMAGE], given[IMAGE].bytes, &buffers));
    }
    if (later <= PICTURE) {
        print_answer(" run and paint", color_clusters_run_and_paint_with(
            &defaults, W, H, (uint8_t *)at[IMAGE], given[IMAGE].bytes, &buffers,
            (uint8_t *)at[PICTURE], given[PICTURE].bytes));
    }
    if (later == PICTURE) {
        print(" paint", color_clusters_paint_with(
            W, H, &buffers, left, (uint8_t *)at[PICTURE], given[PICTURE].bytes));
    }
    if (later == DESTINATION) {
        print(" store", color_clusters_store_with(
            W, H, &buffers, left, (uint8_t *)at[DESTINATION], given[DESTINATION].bytes));
    }
}

/* Any two that begin together, that share one element at an end of either, and that touch at an end of either. The pool
 * is zero, so that each number can be stored. */
static void overlaps(void)
{
    int earlier, later;
    for (later = 1; later < GIVEN; later++) {
        for (earlier = 0; earlier < later; earlier++) {
            const size_t bytes = given[earlier].bytes, later_bytes = given[later].bytes;
            memset(&lent, 0, sizeof lent);
            memcpy(&before, &lent, sizeof lent);
            printf("%s and %s\n", given[earlier].name, given[later].name);
            calls_of(earlier, 0, later, 0);
            calls_of(earlier, 0, later, bytes - given[later].element);
            calls_of(earlier, later_bytes - given[earlier].element, later, 0);
            calls_of(earlier, 0, later, bytes);
            calls_of(earlier, later_bytes, later, 0);
        }
    }
}

static void paintings(void)
{
    const color_clusters_buffers sheet = COLOR_CLUSTERS_LEND(lent.room);
    const size_t len = PICTURE_LEN;
    color_clusters_answer answer = good(&sheet);
    const uint32_t painted = sheet.outputs[answer.m - 1];
    uint32_t *const slot = sheet.table + color_clusters_at(painted, COLOR_CLUSTERS_FIRST_PIXEL);

    print("picture too long", color_clusters_paint_with(W, H, &sheet, answer, lent.picture, len + 1));
    print("no picture", color_clusters_paint_with(W, H, &sheet, answer, missing, len));
    print_answer("picture left out", color_clusters_run_and_paint_with(
        &defaults, W, H, chart, sizeof chart, &sheet, lent.picture, 0));
    answer.n = PIXELS + 2;
    print("n too large", color_clusters_paint_with(W, H, &sheet, answer, lent.picture, len));
    answer = good(&sheet);
    answer.m = 2 * PIXELS + 1;
    print("m too large", color_clusters_paint_with(W, H, &sheet, answer, lent.picture, len));

    answer = good(&sheet);
    damage(&sheet.outputs[answer.m - 1], answer.n);
    print("entry not below n", color_clusters_paint_with(W, H, &sheet, answer, lent.picture, len));
    answer = good(&sheet);
    damage(&slot[COLOR_CLUSTERS_RESIDUE_COUNT], 0);
    print("residue that counts nothing", color_clusters_paint_with(W, H, &sheet, answer, lent.picture, len));
    answer = good(&sheet);
    damage(&slot[COLOR_CLUSTERS_RESIDUE_A], 255 * slot[COLOR_CLUSTERS_RESIDUE_COUNT] + 1);
    print("residue of too much", color_clusters_paint_with(W, H, &sheet, answer, lent.picture, len));
    answer = good(&sheet);
    damage(&slot[COLOR_CLUSTERS_PIXEL_COUNT], PIXELS + 1);
    print("more pixels than there are", color_clusters_paint_with(W, H, &sheet, answer, lent.picture, len));
    answer = good(&sheet);
    damage(&slot[COLOR_CLUSTERS_FIRST_PIXEL], 0);
    print("no first pixel", color_clusters_paint_with(W, H, &sheet, answer, lent.picture, len));
    answer = good(&sheet);
    damage(&sheet.links[slot[COLOR_CLUSTERS_FIRST_PIXEL] - 1], PIXELS + 1);
    print("link astray", color_clusters_paint_with(W, H, &sheet, answer, lent.picture, len));
    answer = good(&sheet);
    print("the same, whole", color_clusters_paint_with(W, H, &sheet, answer, lent.picture, len));
}

static void rows(void)
{
    print("row h", color_clusters_row_check(W, H, lent.picture, PICTURE_LEN, H));
    print("row of another picture", color_clusters_row_check(W, H + 1, lent.picture, PICTURE_LEN, 0));
    print("last row", color_clusters_row_check(W, H, lent.picture, PICTURE_LEN, H - 1));
}

static void storing(void)
{
    const color_clusters_buffers sheet = COLOR_CLUSTERS_LEND(lent.room);
    color_clusters_buffers shared = sheet;
    color_clusters_answer answer = good(&sheet);
    size_t len = COLOR_CLUSTERS_STORED_LEN(PIXELS, answer.n, answer.m);
    print("destination too long", color_clusters_store_with(W, H, &sheet, answer, lent.stored, len + 1));
    print("no destination", color_clusters_store_with(W, H, &sheet, answer, missing, len));
    damage(&sheet.labels[0], 65536);
    print("label of 65536", color_clusters_store_with(W, H, &sheet, answer, lent.stored, len));
    damage(&sheet.labels[0], 65535);
    print("label of 65535", color_clusters_store_with(W, H, &sheet, answer, lent.stored, len));
    shared.links = shared.labels;
    print("labels for links too", color_clusters_store_with(W, H, &shared, answer, lent.stored, len));
}

int main(void)
{
    uint32_t number;
    memset(&lent, 0x5a, sizeof lent);
    memcpy(&before, &lent, sizeof lent);
    runs();
    after_a_refusal();
    buffers();
    blocks();
    paintings();
    rows();
    storing();
    overlaps_in_order();
    overlaps();
    for (number = 0; number <= 14; number++) {
        printf("%" PRIu32 " %s\n", number, color_clusters_refusal_name(number));
    }
    return 0;
}
