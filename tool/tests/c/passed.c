/* Stands in for the library: prints what the functions by structs pass on to the exported ones, name by name. */
#include <inttypes.h>
#include <stdio.h>

#include "color_clusters.h"

/* Of different lengths, so that each tells itself. */
static struct {
    uint8_t image[1], picture[2], destination[3];
    uint32_t labels[4], links[5], table[6], outputs[7], work[8];
} own;

static const char *name_of(const void *pointer)
{
    return pointer == own.image ? "image" : pointer == own.picture ? "picture"
        : pointer == own.destination ? "destination" : pointer == own.labels ? "labels" : pointer == own.links ? "links"
        : pointer == own.table ? "table" : pointer == own.outputs ? "outputs" : pointer == own.work ? "work"
        : pointer == NULL ? "NULL" : "none";
}

#define NUMBER(argument) printf("%s %lld\n", #argument, (long long)(argument))
#define BUFFER(argument) printf("%s %s %lld\n", #argument, name_of(argument), (long long)(argument##_len))

static void settings_passed(
    int32_t is_same_color_a, int32_t is_same_color_b, uint32_t hierarchical, uint32_t good_min_area, uint32_t good_max_area,
    uint32_t hollow_neighbours, int32_t deepen_diff, uint8_t key_r, uint8_t key_g, uint8_t key_b, uint8_t key_a, uint32_t action)
{
    NUMBER(is_same_color_a);
    NUMBER(is_same_color_b);
    NUMBER(hierarchical);
    NUMBER(good_min_area);
    NUMBER(good_max_area);
    NUMBER(hollow_neighbours);
    NUMBER(deepen_diff);
    NUMBER(key_r);
    NUMBER(key_g);
    NUMBER(key_b);
    NUMBER(key_a);
    NUMBER(action);
}

static void buffers_passed(
    uint32_t w, uint32_t h, const uint8_t *image, size_t image_len, uint32_t *labels, size_t labels_len, uint32_t *links,
    size_t links_len, uint32_t *table, size_t table_len, uint32_t *outputs, size_t outputs_len, uint32_t *work, size_t work_len)
{
    NUMBER(w);
    NUMBER(h);
    BUFFER(image);
    BUFFER(labels);
    BUFFER(links);
    BUFFER(table);
    BUFFER(outputs);
    BUFFER(work);
}

color_clusters_answer color_clusters_run(
    int32_t is_same_color_a, int32_t is_same_color_b, uint32_t hierarchical, uint32_t good_min_area, uint32_t good_max_area,
    uint32_t hollow_neighbours, int32_t deepen_diff, uint8_t key_r, uint8_t key_g, uint8_t key_b, uint8_t key_a, uint32_t action,
    uint32_t w, uint32_t h, const uint8_t *image, size_t image_len, uint32_t *labels, size_t labels_len, uint32_t *links,
    size_t links_len, uint32_t *table, size_t table_len, uint32_t *outputs, size_t outputs_len, uint32_t *work, size_t work_len)
{
    const color_clusters_answer answer = {0, 4294967281, 4294967282};
    printf("run\n");
    settings_passed(
        is_same_color_a, is_same_color_b, hierarchical, good_min_area, good_max_area, hollow_neighbours, deepen_diff,
        key_r, key_g, key_b, key_a, action);
    buffers_passed(
        w, h, image, image_len, labels, labels_len, links, links_len, table, table_len, outputs, outputs_len, work, work_len);
    return answer;
}

color_clusters_answer color_clusters_run_and_paint(
    int32_t is_same_color_a, int32_t is_same_color_b, uint32_t hierarchical, uint32_t good_min_area, uint32_t good_max_area,
    uint32_t hollow_neighbours, int32_t deepen_diff, uint8_t key_r, uint8_t key_g, uint8_t key_b, uint8_t key_a, uint32_t action,
    uint32_t w, uint32_t h, const uint8_t *image, size_t image_len, uint32_t *labels, size_t labels_len, uint32_t *links,
    size_t links_len, uint32_t *table, size_t table_len, uint32_t *outputs, size_t outputs_len, uint32_t *work, size_t work_len,
    uint8_t *picture, size_t picture_len)
{
    const color_clusters_answer answer = {0, 4294967283, 4294967284};
    printf("run_and_paint\n");
    settings_passed(
        is_same_color_a, is_same_color_b, hierarchical, good_min_area, good_max_area, hollow_neighbours, deepen_diff,
        key_r, key_g, key_b, key_a, action);
    buffers_passed(
        w, h, image, image_len, labels, labels_len, links, links_len, table, table_len, outputs, outputs_len, work, work_len);
    BUFFER(picture);
    return answer;
}

uint32_t color_clusters_paint(
    uint32_t w, uint32_t h, const uint32_t *links, size_t links_len, const uint32_t *table, size_t table_len,
    const uint32_t *outputs, size_t outputs_len, uint8_t *picture, size_t picture_len, uint32_t n, uint32_t m)
{
    printf("paint\n");
    NUMBER(w);
    NUMBER(h);
    BUFFER(links);
    BUFFER(table);
    BUFFER(outputs);
    BUFFER(picture);
    NUMBER(n);
    NUMBER(m);
    return 4294967285;
}

uint32_t color_clusters_store(
    uint32_t w, uint32_t h, const uint32_t *labels, size_t labels_len, const uint32_t *links, size_t links_len,
    const uint32_t *table, size_t table_len, const uint32_t *outputs, size_t outputs_len,
    uint8_t *destination, size_t destination_len, uint32_t n, uint32_t m)
{
    printf("store\n");
    NUMBER(w);
    NUMBER(h);
    BUFFER(labels);
    BUFFER(links);
    BUFFER(table);
    BUFFER(outputs);
    BUFFER(destination);
    NUMBER(n);
    NUMBER(m);
    return 4294967286;
}

static void answered(color_clusters_answer answer)
{
    printf("answered %" PRIu32 " %" PRIu32 " %" PRIu32 "\n", answer.number, answer.n, answer.m);
}

static void number(uint32_t answered)
{
    printf("%" PRIu32 "\n", answered);
}

/* All calls with this. */
static void calls(
    const color_clusters_settings *settings, const uint8_t *image, const color_clusters_buffers *buffers,
    uint8_t *picture, uint8_t *destination)
{
    const color_clusters_answer accepted = {0, 4294967287, 4294967288}, refused = {4294967289, 0, 0};
    const uint32_t w = 4294967290, h = 4294967291;
    answered(color_clusters_run_with(settings, w, h, image, sizeof own.image, buffers));
    answered(color_clusters_run_and_paint_with(
        settings, w, h, image, sizeof own.image, buffers, picture, sizeof own.picture));
    number(color_clusters_paint_with(w, h, buffers, accepted, picture, sizeof own.picture));
    number(color_clusters_store_with(w, h, buffers, accepted, destination, sizeof own.destination));
    number(color_clusters_paint_with(w, h, buffers, refused, picture, sizeof own.picture));
    number(color_clusters_store_with(w, h, buffers, refused, destination, sizeof own.destination));
}

int main(void)
{
    const color_clusters_buffers buffers = COLOR_CLUSTERS_LEND(own);
    const color_clusters_settings defaults = COLOR_CLUSTERS_DEFAULTS;
    const color_clusters_color key = {255, 254, 253, 252};
    color_clusters_settings settings = COLOR_CLUSTERS_DEFAULTS;
    color_clusters_buffers missing = COLOR_CLUSTERS_LEND(own);

    settings.is_same_color_a = 2147483647;
    settings.is_same_color_b = -2147483647 - 1;
    settings.hierarchical = 4294967295;
    settings.good_min_area = 4294967294;
    settings.good_max_area = 4294967293;
    settings.hollow_neighbours = 4294967292;
    settings.deepen_diff = -2147483647;
    settings.key_color = key;
    settings.keying_action = COLOR_CLUSTERS_DISCARD;
    printf("by structs\n");
    calls(&settings, own.image, &buffers, own.picture, own.destination);

    printf("nothing lent\n");
    missing.labels = NULL;
    missing.links = NULL;
    missing.table = NULL;
    missing.outputs = NULL;
    missing.work = NULL;
    calls(&defaults, NULL, &missing, NULL, NULL);
    return 0;
}
