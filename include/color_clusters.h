/* Colour clusters of an RGBA image: the C side of the library. C99 or C++11; link with libcolor_clusters.a alone.
 *
 * A run puts the pixels of an image into clusters of like colour. Then it goes through the clusters from small to
 * large: each merges into the neighbour nearest in colour, or stays a patch inside it where it differs enough. Painting
 * gives the pixels of each patch their average colour.
 *
 *     const size_t pixels = COLOR_CLUSTERS_PIXELS(w, h), block_len = COLOR_CLUSTERS_BLOCK_LEN(pixels);
 *     uint32_t *block = (uint32_t *)malloc(sizeof(uint32_t) * block_len);
 *     color_clusters_buffers buffers = color_clusters_buffers_in(block, block_len, pixels);
 *     color_clusters_settings settings = COLOR_CLUSTERS_DEFAULTS;
 *     color_clusters_answer answer;
 *
 *     settings.deepen_diff = 32;
 *     answer = color_clusters_run_and_paint_with(&settings, w, h, image, image_len, &buffers, picture, picture_len);
 *     if (answer.number != COLOR_CLUSTERS_ACCEPTED) {
 *         fprintf(stderr, "%s\n", color_clusters_refusal_name(answer.number));
 *     }
 *     free(block);
 *
 * tool/tests/c/example.c is a whole program. The exact rules are docs/RULES.md, cited here by section.
 *
 * Answers. Every call answers a number: 0, or the number of the first check that failed (color_clusters_refusal). A
 * call that is refused changes nothing that it was lent, and its n and m are 0. Any numbers, lengths and contents are
 * safe to pass, as long as no pointer is NULL, each has as many elements as its length says, and nothing that is lent
 * overlaps anything else of the call.
 *
 * Memory. All of it is the caller's, and the library allocates none. The length of a buffer counts its numbers, never
 * their sizeof; that of an image, a picture or a destination counts its bytes. What a call writes need not be cleared
 * or initialised, since no result depends on what it held, and must overlap nothing else that the call is given; what
 * is only read may be shared, also within one call. An exported function takes no NULL, not even with a length of 0.
 * To the functions by structs a buffer, an image, a picture or a destination that is NULL counts as one of length 0.
 * So does, in a run, a buffer that overlaps another or the image, and in every call a picture or a destination that
 * overlaps what the call reads or writes besides. Each is refused by its name. Settings and buffers themselves may not
 * be NULL.
 *
 * Threads. No call has a state of its own or keeps a pointer: calls with different buffers may run at the same time, in
 * any threads, also where they share what is only read. */
#ifndef COLOR_CLUSTERS_H
#define COLOR_CLUSTERS_H

#include <stddef.h>
#include <stdint.h>

/* ---- What the compiler is told, where it listens ---- */

/* That an answer is not to be dropped and that no pointer is NULL, by structs none at these places; and which argument
 * is the length of what is read or written, so that an array shorter than told draws a warning. What is only read must
 * be initialised; the rest need not be. The functions by structs are always inlined, for only so are the lengths in
 * buffers seen. Underscores keep the words apart from macros of a program. */
#ifdef __has_attribute
#if __has_attribute(__warn_unused_result__) && __has_attribute(__nonnull__)
#define COLOR_CLUSTERS_ANSWERS_ __attribute__((__warn_unused_result__, __nonnull__))
#define COLOR_CLUSTERS_ANSWERS_BY_STRUCTS_(...) \
    __attribute__((__warn_unused_result__, __always_inline__, __nonnull__(__VA_ARGS__)))
#endif
#if __has_attribute(__access__)
#define COLOR_CLUSTERS_READS_(pointer, length) __attribute__((__access__(__read_only__, pointer, length)))
#define COLOR_CLUSTERS_WRITES_(pointer, length) __attribute__((__access__(__write_only__, pointer, length)))
#endif
#endif
#ifndef COLOR_CLUSTERS_ANSWERS_
#define COLOR_CLUSTERS_ANSWERS_
#define COLOR_CLUSTERS_ANSWERS_BY_STRUCTS_(...)
#endif
#ifndef COLOR_CLUSTERS_READS_
#define COLOR_CLUSTERS_READS_(pointer, length)
#define COLOR_CLUSTERS_WRITES_(pointer, length)
#endif

/* ---- Sizes (rules, sections 3 and 11) ---- */

/* The largest number of pixels, w * h, that a call accepts. */
#define COLOR_CLUSTERS_LIMIT 65000

/* A number as a size_t, without a cast: sizeof(char) is 1. */
#define COLOR_CLUSTERS_SIZE_(number) (sizeof(char) * (number))

/* The pixels of w columns and h rows. */
#define COLOR_CLUSTERS_PIXELS(w, h) (COLOR_CLUSTERS_SIZE_(w) * (h))

/* Exact lengths, for so many pixels: of the image and of the picture, which are r, g, b, a of each pixel, row by row
 * from the top and each row from the left; and of the stored sheet of a run that answered n and m. In bytes. */
#define COLOR_CLUSTERS_IMAGE_LEN(pixels) (4 * COLOR_CLUSTERS_SIZE_(pixels))
#define COLOR_CLUSTERS_PICTURE_LEN(pixels) (4 * COLOR_CLUSTERS_SIZE_(pixels))
#define COLOR_CLUSTERS_STORED_LEN(pixels, n, m) \
    (2 * (4 + 2 * COLOR_CLUSTERS_SIZE_(pixels) + 2 * COLOR_CLUSTERS_SIZE_(n) + COLOR_CLUSTERS_SIZE_(m)))

/* Least lengths, for so many pixels, of the buffers, in numbers. Longer ones are accepted. */
#define COLOR_CLUSTERS_LABELS_LEN(pixels) COLOR_CLUSTERS_SIZE_(pixels)
#define COLOR_CLUSTERS_LINKS_LEN(pixels) COLOR_CLUSTERS_SIZE_(pixels)
#define COLOR_CLUSTERS_TABLE_LEN(pixels) (COLOR_CLUSTERS_SLOT_WIDTH * (COLOR_CLUSTERS_SIZE_(pixels) + 1))
#define COLOR_CLUSTERS_OUTPUTS_LEN(pixels) (2 * COLOR_CLUSTERS_SIZE_(pixels))
#define COLOR_CLUSTERS_WORK_LEN(pixels) (8 * COLOR_CLUSTERS_SIZE_(pixels) + 8)

/* How many numbers the five take in one block of memory. */
#define COLOR_CLUSTERS_BLOCK_LEN(pixels) \
    (COLOR_CLUSTERS_LABELS_LEN(pixels) + COLOR_CLUSTERS_LINKS_LEN(pixels) + COLOR_CLUSTERS_TABLE_LEN(pixels) + \
     COLOR_CLUSTERS_OUTPUTS_LEN(pixels) + COLOR_CLUSTERS_WORK_LEN(pixels))

/* ---- Refusals (rules, section 3) ---- */

/* The checks by their numbers. Each call makes those that are said with it, in that order. */
typedef enum {
    COLOR_CLUSTERS_ACCEPTED = 0,
    COLOR_CLUSTERS_REFUSED_SHIFT = 1,       /* is_same_color_a is below 0 or above 7 */
    COLOR_CLUSTERS_REFUSED_EMPTY = 2,       /* w or h is 0 */
    COLOR_CLUSTERS_REFUSED_LIMIT = 3,       /* w * h is above COLOR_CLUSTERS_LIMIT */
    COLOR_CLUSTERS_REFUSED_IMAGE = 4,       /* the image has not its exact length */
    COLOR_CLUSTERS_REFUSED_BUFFER = 5,      /* a buffer is too short; or n is above w * h + 1, or m above 2 * w * h */
    COLOR_CLUSTERS_REFUSED_PICTURE = 6,     /* the picture has not its exact length */
    COLOR_CLUSTERS_REFUSED_SUM = 7,         /* a sum would pass 4294967295: no call of this header answers it */
    COLOR_CLUSTERS_REFUSED_ENTRY = 8,       /* an output entry is not below n */
    COLOR_CLUSTERS_REFUSED_AVERAGE = 9,     /* the residue of its slot counts 0, or has a channel above 255 * count */
    COLOR_CLUSTERS_REFUSED_LIST = 10,       /* its pixel count, or a number on the way to a pixel of its list, is above
                                             * w * h, or such a number is 0 */
    COLOR_CLUSTERS_REFUSED_ROW = 11,        /* y is not below h */
    COLOR_CLUSTERS_REFUSED_NUMBER = 12,     /* a number to be stored is above 65535 */
    COLOR_CLUSTERS_REFUSED_DESTINATION = 13 /* the destination has not its exact length */
} color_clusters_refusal;

/* The name of a number, for messages: "COLOR_CLUSTERS_REFUSED_LIMIT" for 3. */
static inline const char *color_clusters_refusal_name(uint32_t number)
{
#define COLOR_CLUSTERS_NAME_(name) case name: return #name
    switch (number) {
    COLOR_CLUSTERS_NAME_(COLOR_CLUSTERS_ACCEPTED);
    COLOR_CLUSTERS_NAME_(COLOR_CLUSTERS_REFUSED_SHIFT);
    COLOR_CLUSTERS_NAME_(COLOR_CLUSTERS_REFUSED_EMPTY);
    COLOR_CLUSTERS_NAME_(COLOR_CLUSTERS_REFUSED_LIMIT);
    COLOR_CLUSTERS_NAME_(COLOR_CLUSTERS_REFUSED_IMAGE);
    COLOR_CLUSTERS_NAME_(COLOR_CLUSTERS_REFUSED_BUFFER);
    COLOR_CLUSTERS_NAME_(COLOR_CLUSTERS_REFUSED_PICTURE);
    COLOR_CLUSTERS_NAME_(COLOR_CLUSTERS_REFUSED_SUM);
    COLOR_CLUSTERS_NAME_(COLOR_CLUSTERS_REFUSED_ENTRY);
    COLOR_CLUSTERS_NAME_(COLOR_CLUSTERS_REFUSED_AVERAGE);
    COLOR_CLUSTERS_NAME_(COLOR_CLUSTERS_REFUSED_LIST);
    COLOR_CLUSTERS_NAME_(COLOR_CLUSTERS_REFUSED_ROW);
    COLOR_CLUSTERS_NAME_(COLOR_CLUSTERS_REFUSED_NUMBER);
    COLOR_CLUSTERS_NAME_(COLOR_CLUSTERS_REFUSED_DESTINATION);
    default: return "no number of the library";
    }
#undef COLOR_CLUSTERS_NAME_
}

/* ---- Settings (rules, section 2) ---- */

/* hierarchical of a run in which patches stay inside others. */
#define COLOR_CLUSTERS_HIERARCHICAL_MAX 4294967295u

typedef struct {
    uint8_t r, g, b, a;
} color_clusters_color;

/* What becomes of pixels of the key colour. */
typedef enum {
    COLOR_CLUSTERS_KEEP = 0,   /* they begin in cluster 0 */
    COLOR_CLUSTERS_DISCARD = 1 /* they belong to no cluster, and the picture is (0,0,0,0) there */
} color_clusters_action;

/* The settings of a run, by the original's names. Any value is accepted, but for is_same_color_a. */
typedef struct {
    /* 0 to 7, default 4. Two colours are like if r, g and b of both, shifted right by this, differ by at most
     * is_same_color_b. */
    int32_t is_same_color_a;
    /* Default 1. Below 0 no two colours are like. */
    int32_t is_same_color_b;
    /* Default COLOR_CLUSTERS_HIERARCHICAL_MAX. Once all pixels are taken, a cluster of more pixels is not merged into
     * another. Only with the default can one stay a patch inside another; 0 merges none from then on. */
    uint32_t hierarchical;
    /* Default 16. What stays a patch inside another has more pixels than this and, unless this is 0, not all of them on
     * its edge. */
    uint32_t good_min_area;
    /* Default 65536. What stays a patch inside another has fewer pixels than this. */
    uint32_t good_max_area;
    /* Default 1. Such a patch is a hole of the other if it has at most so many neighbours. */
    uint32_t hollow_neighbours;
    /* Default 64. What stays a patch inside another differs from it by more than this: the differences of r, g and b,
     * added up, are 0 to 765. */
    int32_t deepen_diff;
    /* Default (0,0,0,0), which turns keying off. Pixels of exactly this colour, alpha too, are treated apart. */
    color_clusters_color key_color;
    /* Default COLOR_CLUSTERS_KEEP. How they are treated. */
    color_clusters_action keying_action;
} color_clusters_settings;

/* Initialises color_clusters_settings to the defaults. Settings that come later have theirs here too. */
#define COLOR_CLUSTERS_DEFAULTS \
    {4, 1, COLOR_CLUSTERS_HIERARCHICAL_MAX, 16, 65536, 1, 64, {0, 0, 0, 0}, COLOR_CLUSTERS_KEEP}

/* ---- Buffers (rules, section 8) ---- */

/* What a run writes, and painting and storing read. The number of a pixel is its column + w * its row. */
typedef struct {
    /* Of each pixel the number of its cluster; of several inside each other, that of the largest. 0 if discarded, and 0
     * of a pixel of cluster 0, which is in the list of that cluster. */
    uint32_t *labels;
    size_t labels_len;
    /* Of each pixel the one after it in the list of the cluster of its label, as pixel number + 1; 0 ends the list. */
    uint32_t *links;
    size_t links_len;
    /* n slots, one for each cluster number from 0 on, of the numbers of color_clusters_place. */
    uint32_t *table;
    size_t table_len;
    /* m cluster numbers: what is painted, from the last to the first. One may stand twice. With a key that is kept and
     * hierarchical below its default one may be missing, and its pixels stay (0,0,0,0). */
    uint32_t *outputs;
    size_t outputs_len;
    /* What the run notes for itself: zero afterwards, in its whole length. */
    uint32_t *work;
    size_t work_len;
} color_clusters_buffers;

/* The numbers of a slot, by their places. */
typedef enum {
    COLOR_CLUSTERS_FIRST_PIXEL,   /* the first of its list, as pixel number + 1; 0: none. The links lead on, and */
    COLOR_CLUSTERS_PIXEL_COUNT,   /* this says where the list stops: that of a patch leads on into what is around it */
    COLOR_CLUSTERS_LEFT,          /* the rectangle around its pixels; right and bottom are one past the last */
    COLOR_CLUSTERS_TOP,
    COLOR_CLUSTERS_RIGHT,
    COLOR_CLUSTERS_BOTTOM,
    COLOR_CLUSTERS_SUM_R,         /* the colours of its pixels, added up, and how many they are */
    COLOR_CLUSTERS_SUM_G,
    COLOR_CLUSTERS_SUM_B,
    COLOR_CLUSTERS_SUM_A,
    COLOR_CLUSTERS_SUM_COUNT,
    COLOR_CLUSTERS_RESIDUE_R,     /* the same without those of the patches inside it: the average of this is painted; */
    COLOR_CLUSTERS_RESIDUE_G,     /* in an empty slot it is left over, with all that follows */
    COLOR_CLUSTERS_RESIDUE_B,
    COLOR_CLUSTERS_RESIDUE_A,
    COLOR_CLUSTERS_RESIDUE_COUNT,
    COLOR_CLUSTERS_MERGED_INTO,   /* the cluster inside which it became a patch, which may have merged since; 0: none */
    COLOR_CLUSTERS_DEPTH,         /* how many clusters became patches right inside it */
    COLOR_CLUSTERS_NUM_HOLES,     /* how many of these are its holes */
    COLOR_CLUSTERS_FIRST_HOLE,    /* the first hole, as cluster number + 1; 0: none */
    COLOR_CLUSTERS_NEXT_HOLE,     /* of a hole, the next one of the same cluster, as cluster number + 1; 0: none */
    COLOR_CLUSTERS_SLOT_WIDTH     /* how many numbers a slot has */
} color_clusters_place;

/* Where a number of a slot stands: table[color_clusters_at(cluster, COLOR_CLUSTERS_PIXEL_COUNT)]. */
static inline size_t color_clusters_at(uint32_t cluster, color_clusters_place place)
{
    const size_t within = place;
    return COLOR_CLUSTERS_SLOT_WIDTH * COLOR_CLUSTERS_SIZE_(cluster) + within;
}

/* A struct with the five buffers for an image of so many pixels or fewer, a constant: above the limit, or of a size
 * known only at run time, it does not compile. It takes 132 bytes a pixel and some more: a large one is static, or from
 * malloc, and not a local. */
#define COLOR_CLUSTERS_ROOM(pixels) \
    struct { \
        uint32_t labels[COLOR_CLUSTERS_LABELS_LEN(pixels)]; \
        uint32_t links[COLOR_CLUSTERS_LINKS_LEN(pixels)]; \
        uint32_t table[COLOR_CLUSTERS_TABLE_LEN(pixels)]; \
        uint32_t outputs[COLOR_CLUSTERS_OUTPUTS_LEN(pixels)]; \
        uint32_t work[COLOR_CLUSTERS_WORK_LEN(pixels)]; \
        unsigned within_the_limit : (pixels) <= COLOR_CLUSTERS_LIMIT ? 1 : -1; \
    }

/* The length of an array. In C++ and GNU C it does not compile with a pointer or a class in its place, in C++ neither
 * with an array of a size known only at run time. In three ways: C++ tells an array by a template, GNU C by its type,
 * which is not that of a pointer to its first element, and plain C cannot tell. The template is one of C++ also where a
 * program includes this file as C. */
#ifdef __cplusplus
extern "C++" {
template <class Element, size_t len> char (&color_clusters_len_(const Element (&array)[len]))[len];
}
#define COLOR_CLUSTERS_LEN(array) sizeof(color_clusters_len_(array))
#elif defined __GNUC__
#define COLOR_CLUSTERS_LEN(array) \
    (sizeof(array) / sizeof((array)[0]) * \
     sizeof(char[__builtin_types_compatible_p(__typeof__(array), __typeof__(&(array)[0])) ? -1 : 1]))
#else
#define COLOR_CLUSTERS_LEN(array) (sizeof(array) / sizeof((array)[0]))
#endif

/* Initialises color_clusters_buffers from a struct with arrays of these names, such as a COLOR_CLUSTERS_ROOM. */
#define COLOR_CLUSTERS_LEND(room) \
    {(room).labels, COLOR_CLUSTERS_LEN((room).labels), (room).links, COLOR_CLUSTERS_LEN((room).links), \
     (room).table, COLOR_CLUSTERS_LEN((room).table), (room).outputs, COLOR_CLUSTERS_LEN((room).outputs), \
     (room).work, COLOR_CLUSTERS_LEN((room).work)}

/* Cuts a buffer of so many numbers from the front of a block. */
static inline void color_clusters_cut_(uint32_t **block, size_t len, uint32_t **buffer, size_t *buffer_len)
{
    *buffer = *block;
    *buffer_len = len;
    *block += len;
}

/* The five buffers for so many pixels, known at run time, in one block of COLOR_CLUSTERS_BLOCK_LEN(pixels) numbers:
 * malloc(sizeof(uint32_t) * COLOR_CLUSTERS_BLOCK_LEN(pixels)). Where it is NULL, or its length is less, or the pixels
 * are above the limit, the buffers have length 0, and a run refuses them by name. */
COLOR_CLUSTERS_WRITES_(1, 2)
static inline color_clusters_buffers color_clusters_buffers_in(uint32_t *block, size_t block_len, size_t pixels)
{
    color_clusters_buffers buffers = {block, 0, block, 0, block, 0, block, 0, block, 0};
    if (block && pixels <= COLOR_CLUSTERS_LIMIT && block_len >= COLOR_CLUSTERS_BLOCK_LEN(pixels)) {
        color_clusters_cut_(&block, COLOR_CLUSTERS_LABELS_LEN(pixels), &buffers.labels, &buffers.labels_len);
        color_clusters_cut_(&block, COLOR_CLUSTERS_LINKS_LEN(pixels), &buffers.links, &buffers.links_len);
        color_clusters_cut_(&block, COLOR_CLUSTERS_TABLE_LEN(pixels), &buffers.table, &buffers.table_len);
        color_clusters_cut_(&block, COLOR_CLUSTERS_OUTPUTS_LEN(pixels), &buffers.outputs, &buffers.outputs_len);
        color_clusters_cut_(&block, COLOR_CLUSTERS_WORK_LEN(pixels), &buffers.work, &buffers.work_len);
    }
    return buffers;
}

/* ---- The exported functions ---- */

typedef struct {
    uint32_t number; /* 0, or the number of the first check that failed */
    uint32_t n;      /* cluster slots, empty ones too: of those PIXEL_COUNT is 0 */
    uint32_t m;      /* output entries */
} color_clusters_answer;

#ifdef __cplusplus
extern "C" {
#endif

/* Clusters an image of w columns and h rows (rules, sections 4 to 8). Checks 1, 2, 3, 4, 5.
 *
 * action: 0 keeps pixels of the key colour, any other number discards them. Afterwards work is zero in its whole
 * length; labels and links beyond w * h, slots beyond n and output entries beyond m are as they were. */
COLOR_CLUSTERS_ANSWERS_ COLOR_CLUSTERS_READS_(15, 16) COLOR_CLUSTERS_WRITES_(17, 18) COLOR_CLUSTERS_WRITES_(19, 20)
COLOR_CLUSTERS_WRITES_(21, 22) COLOR_CLUSTERS_WRITES_(23, 24) COLOR_CLUSTERS_WRITES_(25, 26)
color_clusters_answer color_clusters_run(
    int32_t is_same_color_a, int32_t is_same_color_b, uint32_t hierarchical, uint32_t good_min_area, uint32_t good_max_area,
    uint32_t hollow_neighbours, int32_t deepen_diff, uint8_t key_r, uint8_t key_g, uint8_t key_b, uint8_t key_a, uint32_t action,
    uint32_t w, uint32_t h, const uint8_t *image, size_t image_len, uint32_t *labels, size_t labels_len, uint32_t *links, size_t links_len,
    uint32_t *table, size_t table_len, uint32_t *outputs, size_t outputs_len, uint32_t *work, size_t work_len);

/* Paints the outputs from last to first, each with the average of its slot's residue, over zeros (rules, section 9).
 * Checks 2, 3, 5, 6, then of each entry from last to first 8, 9, 10; it paints only when all pass.
 *
 * w, h, links, table, outputs, n and m are those of a run, though any are safe. Only the picture is written, all of
 * it. */
COLOR_CLUSTERS_ANSWERS_ COLOR_CLUSTERS_READS_(3, 4) COLOR_CLUSTERS_READS_(5, 6) COLOR_CLUSTERS_READS_(7, 8)
COLOR_CLUSTERS_WRITES_(9, 10)
uint32_t color_clusters_paint(
    uint32_t w, uint32_t h, const uint32_t *links, size_t links_len, const uint32_t *table, size_t table_len,
    const uint32_t *outputs, size_t outputs_len, uint8_t *picture, size_t picture_len, uint32_t n, uint32_t m);

/* A run, and then painting from what it leaves. Checks 1, 2, 3, 4, 5, 6, all before the run. */
COLOR_CLUSTERS_ANSWERS_ COLOR_CLUSTERS_READS_(15, 16) COLOR_CLUSTERS_WRITES_(17, 18) COLOR_CLUSTERS_WRITES_(19, 20)
COLOR_CLUSTERS_WRITES_(21, 22) COLOR_CLUSTERS_WRITES_(23, 24) COLOR_CLUSTERS_WRITES_(25, 26)
COLOR_CLUSTERS_WRITES_(27, 28)
color_clusters_answer color_clusters_run_and_paint(
    int32_t is_same_color_a, int32_t is_same_color_b, uint32_t hierarchical, uint32_t good_min_area, uint32_t good_max_area,
    uint32_t hollow_neighbours, int32_t deepen_diff, uint8_t key_r, uint8_t key_g, uint8_t key_b, uint8_t key_a, uint32_t action,
    uint32_t w, uint32_t h, const uint8_t *image, size_t image_len, uint32_t *labels, size_t labels_len, uint32_t *links, size_t links_len,
    uint32_t *table, size_t table_len, uint32_t *outputs, size_t outputs_len, uint32_t *work, size_t work_len,
    uint8_t *picture, size_t picture_len);

/* Whether the picture has a row y: where the answer is 0, it is the 4 * w bytes from picture[4 * w * y] on (rules,
 * section 10). Checks 2, 3, 6, 11. Nothing is written. */
COLOR_CLUSTERS_ANSWERS_ COLOR_CLUSTERS_READS_(3, 4)
uint32_t color_clusters_row_check(uint32_t w, uint32_t h, const uint8_t *picture, size_t picture_len, uint32_t y);

/* Stores a sheet as two-byte numbers, low byte first: w, h, n, m; label and link of each pixel; first pixel and pixel
 * count of each slot; the outputs (rules, section 11). Checks 2, 3, 5, 12, 13. Only the destination is written, all of
 * it. */
COLOR_CLUSTERS_ANSWERS_ COLOR_CLUSTERS_READS_(3, 4) COLOR_CLUSTERS_READS_(5, 6) COLOR_CLUSTERS_READS_(7, 8)
COLOR_CLUSTERS_READS_(9, 10) COLOR_CLUSTERS_WRITES_(11, 12)
uint32_t color_clusters_store(
    uint32_t w, uint32_t h, const uint32_t *labels, size_t labels_len, const uint32_t *links, size_t links_len,
    const uint32_t *table, size_t table_len, const uint32_t *outputs, size_t outputs_len,
    uint8_t *destination, size_t destination_len, uint32_t n, uint32_t m);

#ifdef __cplusplus
}
#endif

/* ---- The same by structs ---- */

/* The arguments of an exported function, from a struct. In place of NULL goes `none`, with the length 0. */
#define COLOR_CLUSTERS_PASS_(pointer, len, none) (pointer) ? (pointer) : (none), (pointer) ? (len) : 0
#define COLOR_CLUSTERS_PASS_SETTINGS_(s) \
    (s)->is_same_color_a, (s)->is_same_color_b, (s)->hierarchical, (s)->good_min_area, (s)->good_max_area, \
    (s)->hollow_neighbours, (s)->deepen_diff, (s)->key_color.r, (s)->key_color.g, (s)->key_color.b, (s)->key_color.a, \
    (s)->keying_action
#define COLOR_CLUSTERS_PASS_SHEET_(b, none) \
    COLOR_CLUSTERS_PASS_((b)->links, (b)->links_len, none), COLOR_CLUSTERS_PASS_((b)->table, (b)->table_len, none), \
    COLOR_CLUSTERS_PASS_((b)->outputs, (b)->outputs_len, none)
#define COLOR_CLUSTERS_PASS_BUFFERS_(b, none) \
    COLOR_CLUSTERS_PASS_((b)->labels, (b)->labels_len, none), COLOR_CLUSTERS_PASS_SHEET_(b, none), \
    COLOR_CLUSTERS_PASS_((b)->work, (b)->work_len, none)

/* Memory between two ends; none where it is NULL. */
typedef struct {
    const void *begin, *end;
} color_clusters_range_;

#define COLOR_CLUSTERS_RANGE_(pointer, len) {(pointer), (pointer) ? (pointer) + (len) : (pointer)}
#define COLOR_CLUSTERS_RANGES_OF_SHEET_(b) \
    COLOR_CLUSTERS_RANGE_((b)->links, (b)->links_len), COLOR_CLUSTERS_RANGE_((b)->table, (b)->table_len), \
    COLOR_CLUSTERS_RANGE_((b)->outputs, (b)->outputs_len)
#define COLOR_CLUSTERS_RANGES_OF_BUFFERS_(b) \
    COLOR_CLUSTERS_RANGE_((b)->labels, (b)->labels_len), COLOR_CLUSTERS_RANGES_OF_SHEET_(b), \
    COLOR_CLUSTERS_RANGE_((b)->work, (b)->work_len)

/* Whether one of so many ranges, of those from this place on, overlaps one before it. Their addresses are compared, of
 * which C itself says nothing where the ranges lie in different objects. */
static inline int color_clusters_overlap_(const color_clusters_range_ *ranges, size_t count, size_t place)
{
    size_t before;
    for (; place < count; place++) {
        for (before = 0; before < place; before++) {
            if (ranges[before].begin < ranges[place].end && ranges[place].begin < ranges[before].end) {
                return 1;
            }
        }
    }
    return 0;
}

/* A run without buffers, in place of one whose buffers overlap: refused, by the same checks in the same order. */
static inline color_clusters_answer color_clusters_without_buffers_(
    const color_clusters_settings *settings, uint32_t w, uint32_t h, const uint8_t *image, size_t image_len)
{
    uint32_t none = 0;
    uint8_t no_byte = 0;
    return color_clusters_run(
        COLOR_CLUSTERS_PASS_SETTINGS_(settings), w, h, COLOR_CLUSTERS_PASS_(image, image_len, &no_byte),
        &none, 0, &none, 0, &none, 0, &none, 0, &none, 0);
}

/* color_clusters_run. */
COLOR_CLUSTERS_ANSWERS_BY_STRUCTS_(1, 6) COLOR_CLUSTERS_READS_(4, 5)
static inline color_clusters_answer color_clusters_run_with(
    const color_clusters_settings *settings, uint32_t w, uint32_t h, const uint8_t *image, size_t image_len,
    const color_clusters_buffers *buffers)
{
    const color_clusters_range_ ranges[] = {
        COLOR_CLUSTERS_RANGES_OF_BUFFERS_(buffers), COLOR_CLUSTERS_RANGE_(image, image_len)};
    uint32_t no_number = 0;
    uint8_t no_byte = 0;
    if (color_clusters_overlap_(ranges, COLOR_CLUSTERS_LEN(ranges), 0)) {
        return color_clusters_without_buffers_(settings, w, h, image, image_len);
    }
    return color_clusters_run(
        COLOR_CLUSTERS_PASS_SETTINGS_(settings), w, h, COLOR_CLUSTERS_PASS_(image, image_len, &no_byte),
        COLOR_CLUSTERS_PASS_BUFFERS_(buffers, &no_number));
}

/* color_clusters_run_and_paint. */
COLOR_CLUSTERS_ANSWERS_BY_STRUCTS_(1, 6) COLOR_CLUSTERS_READS_(4, 5) COLOR_CLUSTERS_WRITES_(7, 8)
static inline color_clusters_answer color_clusters_run_and_paint_with(
    const color_clusters_settings *settings, uint32_t w, uint32_t h, const uint8_t *image, size_t image_len,
    const color_clusters_buffers *buffers, uint8_t *picture, size_t picture_len)
{
    const color_clusters_range_ ranges[] = {
        COLOR_CLUSTERS_RANGES_OF_BUFFERS_(buffers), COLOR_CLUSTERS_RANGE_(image, image_len),
        COLOR_CLUSTERS_RANGE_(picture, picture_len)};
    const size_t count = COLOR_CLUSTERS_LEN(ranges);
    uint32_t no_number = 0;
    uint8_t no_byte = 0;
    if (color_clusters_overlap_(ranges, count - 1, 0)) {
        return color_clusters_without_buffers_(settings, w, h, image, image_len);
    }
    if (color_clusters_overlap_(ranges, count, count - 1)) {
        picture_len = 0;
    }
    return color_clusters_run_and_paint(
        COLOR_CLUSTERS_PASS_SETTINGS_(settings), w, h, COLOR_CLUSTERS_PASS_(image, image_len, &no_byte),
        COLOR_CLUSTERS_PASS_BUFFERS_(buffers, &no_number), COLOR_CLUSTERS_PASS_(picture, picture_len, &no_byte));
}

/* color_clusters_paint of what a run left in links, table and outputs. Where that run was refused its number is
 * answered again. */
COLOR_CLUSTERS_ANSWERS_BY_STRUCTS_(3) COLOR_CLUSTERS_WRITES_(5, 6)
static inline uint32_t color_clusters_paint_with(
    uint32_t w, uint32_t h, const color_clusters_buffers *buffers, color_clusters_answer answer,
    uint8_t *picture, size_t picture_len)
{
    const color_clusters_range_ ranges[] = {
        COLOR_CLUSTERS_RANGES_OF_SHEET_(buffers), COLOR_CLUSTERS_RANGE_(picture, picture_len)};
    const size_t count = COLOR_CLUSTERS_LEN(ranges);
    uint32_t no_number = 0;
    uint8_t no_byte = 0;
    if (answer.number != COLOR_CLUSTERS_ACCEPTED) {
        return answer.number;
    }
    if (color_clusters_overlap_(ranges, count, count - 1)) {
        picture_len = 0;
    }
    return color_clusters_paint(
        w, h, COLOR_CLUSTERS_PASS_SHEET_(buffers, &no_number), COLOR_CLUSTERS_PASS_(picture, picture_len, &no_byte),
        answer.n, answer.m);
}

/* color_clusters_store of what a run left in labels, links, table and outputs. Where that run was refused its number is
 * answered again. */
COLOR_CLUSTERS_ANSWERS_BY_STRUCTS_(3) COLOR_CLUSTERS_WRITES_(5, 6)
static inline uint32_t color_clusters_store_with(
    uint32_t w, uint32_t h, const color_clusters_buffers *buffers, color_clusters_answer answer,
    uint8_t *destination, size_t destination_len)
{
    const color_clusters_range_ ranges[] = {
        COLOR_CLUSTERS_RANGE_(buffers->labels, buffers->labels_len), COLOR_CLUSTERS_RANGES_OF_SHEET_(buffers),
        COLOR_CLUSTERS_RANGE_(destination, destination_len)};
    const size_t count = COLOR_CLUSTERS_LEN(ranges);
    uint32_t no_number = 0;
    uint8_t no_byte = 0;
    if (answer.number != COLOR_CLUSTERS_ACCEPTED) {
        return answer.number;
    }
    if (color_clusters_overlap_(ranges, count, count - 1)) {
        destination_len = 0;
    }
    return color_clusters_store(
        w, h, COLOR_CLUSTERS_PASS_(buffers->labels, buffers->labels_len, &no_number),
        COLOR_CLUSTERS_PASS_SHEET_(buffers, &no_number),
        COLOR_CLUSTERS_PASS_(destination, destination_len, &no_byte), answer.n, answer.m);
}

#undef COLOR_CLUSTERS_PASS_
#undef COLOR_CLUSTERS_PASS_SETTINGS_
#undef COLOR_CLUSTERS_PASS_SHEET_
#undef COLOR_CLUSTERS_PASS_BUFFERS_
#undef COLOR_CLUSTERS_RANGE_
#undef COLOR_CLUSTERS_RANGES_OF_SHEET_
#undef COLOR_CLUSTERS_RANGES_OF_BUFFERS_
#undef COLOR_CLUSTERS_ANSWERS_
#undef COLOR_CLUSTERS_ANSWERS_BY_STRUCTS_
#undef COLOR_CLUSTERS_READS_
#undef COLOR_CLUSTERS_WRITES_

#endif
