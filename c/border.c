/* Every call, so that the border to C is seen whole: each argument at its place, the four numbers of each answer, and
 * every lent word after each call. The arguments of a call differ. Every expected number and word was written by hand
 * from document 01. */
#include <stddef.h>
#include <stdio.h>
#include <string.h>

#include "shapes.h"

enum { SHAPES = 8, TABLES = 4, KEYS = 2, EDGES = 6, WORDS = SHAPES_WORDS(SHAPES, TABLES, KEYS, EDGES), OUT = 3 };

static uint32_t image[WORDS], out[OUT] = {91, 92, 93};
static uint32_t image_expected[WORDS], out_expected[OUT] = {91, 92, 93};
static unsigned calls, failures;

/* Where a record starts: behind the header's 8 words a shape has 10, a table 1 + 3 x 2, an edge 5. */
#define SHAPE(n) (8 + 10 * ((n) - 1))
#define TABLE(n) (88 + 7 * ((n) - 1))
#define EDGE(n) (116 + 5 * ((n) - 1))
enum { HOLDS = 1, PROPERTY_COUNTER = 8, PROTOTYPE_COUNTER = 9, CHILD = 4 };

/* The words that the next call is to leave from there on. */
#define LEAVES(at, ...) \
    memcpy(image_expected + (at), (const uint32_t[]){__VA_ARGS__}, sizeof(const uint32_t[]){__VA_ARGS__})

static void told(const char *call, struct shapes_reply r, uint32_t refusal, uint32_t first, uint32_t second,
                 uint32_t third) {
    int numbers = r.refusal == refusal && r.first == first && r.second == second && r.third == third;
    int words = memcmp(image, image_expected, sizeof image) == 0 && memcmp(out, out_expected, sizeof out) == 0;
    printf("%s: %u %u %u %u\n", call, (unsigned)r.refusal, (unsigned)r.first, (unsigned)r.second, (unsigned)r.third);
    if (!numbers) fprintf(stderr, "%s: other numbers are expected\n", call);
    if (!words) fprintf(stderr, "%s: other words are expected\n", call);
    calls++;
    failures += !numbers || !words;
}

#define ANSWERS(call, refusal, first, second, third) told(#call, call, refusal, first, second, third)

/* Key 5 takes two places; key 9 two and then, in a table of its own, one. */
static void calls_that_give_a_shape(void) {
    LEAVES(0, 8, 4, 2, 6, 8, 88, 116, 146);
    ANSWERS(shapes_format(image, WORDS, 8, 4, 2, 6), 0, 0, 0, 0);
    LEAVES(SHAPE(1), 1, 1, 0, 0, 0, 0, 0, 1, 0, 0);
    LEAVES(TABLE(1), 1);
    ANSWERS(shapes_root(image, WORDS), 0, 1, 0, 0);
    LEAVES(SHAPE(1) + PROPERTY_COUNTER, 1);
    LEAVES(SHAPE(2), 1, 1, 1, 0, 1, 1, 0, 1, 0, 0);
    LEAVES(TABLE(1), 2, 5, 14, 0);
    LEAVES(EDGE(1), 1, 0, 5, 14, 2);
    ANSWERS(shapes_insert(image, WORDS, 1, 5, 14), 0, 2, 0, 1);
    LEAVES(SHAPE(2) + PROPERTY_COUNTER, 1);
    LEAVES(SHAPE(3), 1, 1, 2, 0, 2, 2, 0, 1, 0, 0);
    LEAVES(TABLE(1), 3, 5, 14, 0, 9, 24, 2);
    LEAVES(EDGE(2), 2, 0, 9, 24, 3);
    ANSWERS(shapes_insert(image, WORDS, 2, 9, 24), 0, 3, 0, 2);
    LEAVES(SHAPE(2) + PROPERTY_COUNTER, 2);
    LEAVES(SHAPE(4), 1, 1, 2, 0, 2, 2, 0, 2, 0, 0);
    LEAVES(TABLE(2), 3, 5, 14, 0, 9, 6, 2);
    LEAVES(EDGE(3), 2, 0, 9, 6, 4);
    ANSWERS(shapes_change(image, WORDS, 3, 9, 6), 0, 4, 1, 2);
    LEAVES(SHAPE(4) + PROTOTYPE_COUNTER, 1);
    LEAVES(SHAPE(5), 1, 1, 4, 2, 3, 2, 11, 2, 0, 0);
    LEAVES(EDGE(4), 4, 1, 11, 0, 5);
    ANSWERS(shapes_set_prototype(image, WORDS, 4, 11), 0, 5, 0, 3);
    LEAVES(SHAPE(2) + PROTOTYPE_COUNTER, 1);
    LEAVES(SHAPE(6), 1, 1, 2, 2, 2, 1, 11, 1, 0, 0);
    LEAVES(EDGE(5), 2, 1, 11, 0, 6);
    ANSWERS(shapes_remove(image, WORDS, 5, 9), 0, 6, 0, 2);
    LEAVES(SHAPE(7), 2, 1, 0, 0, 0, 0, 0, 3, 0, 0);
    LEAVES(TABLE(3), 1);
    ANSWERS(shapes_unique(image, WORDS), 0, 7, 0, 0);
    LEAVES(SHAPE(5) + HOLDS, 2);
    ANSWERS(shapes_hold(image, WORDS, 5), 0, 5, 0, 3);
    LEAVES(SHAPE(4) + HOLDS, 2);
    ANSWERS(shapes_previous(image, WORDS, 5), 0, 4, 0, 2);
}

static void questions(void) {
    ANSWERS(shapes_is_sound(image, WORDS), 0, 0, 0, 0);
    ANSWERS(shapes_is_sound(image, WORDS - 1), 1, 0, 0, 0);
    ANSWERS(shapes_lookup(image, WORDS, 5, 9), 0, 1, 2, 6);
    out_expected[0] = 5;
    out_expected[1] = 9;
    ANSWERS(shapes_keys(image, WORDS, 5, out, OUT), 0, 2, 0, 0);
    ANSWERS(shapes_prototype(image, WORDS, 5), 0, 11, 0, 0);
    ANSWERS(shapes_is_shared(image, WORDS, 5), 0, 1, 0, 0);
    ANSWERS(shapes_transition_count(image, WORDS, 5), 0, 3, 0, 0);
    ANSWERS(shapes_property_count(image, WORDS, 5), 0, 2, 0, 0);
}

/* Shape 6 leaves a dead edge, and the unique shape 7 its table. */
static void calls_that_give_shapes_back(void) {
    LEAVES(SHAPE(6) + HOLDS, 0);
    ANSWERS(shapes_release(image, WORDS, 6), 0, 0, 0, 0);
    LEAVES(SHAPE(7) + HOLDS, 0);
    ANSWERS(shapes_release(image, WORDS, 7), 0, 0, 0, 0);
    LEAVES(SHAPE(6), 0, 0, 0, 0, 0, 0, 0, 0, 0, 0);
    LEAVES(SHAPE(7), 0, 0, 0, 0, 0, 0, 0, 0, 0, 0);
    LEAVES(TABLE(3), 0);
    LEAVES(EDGE(5) + CHILD, 0);
    ANSWERS(shapes_sweep(image, WORDS), 0, 2, 1, 0);
}

int main(void) {
    const size_t at[] = {offsetof(struct shapes_reply, refusal), offsetof(struct shapes_reply, first),
                         offsetof(struct shapes_reply, second), offsetof(struct shapes_reply, third)};
    calls_that_give_a_shape();
    questions();
    calls_that_give_shapes_back();
    printf("%u of %u calls answer and leave what document 01 says\n", calls - failures, calls);
    printf("the attributes are %d, %d, %d, %d and %d; keys begin at %u, %u and %u\n", SHAPES_WRITABLE, SHAPES_ENUMERABLE,
           SHAPES_CONFIGURABLE, SHAPES_GET, SHAPES_SET, (unsigned)SHAPES_STRING(0), (unsigned)SHAPES_SYMBOL(0),
           (unsigned)SHAPES_INDEX(0));
    printf("the four numbers stand at bytes %u, %u, %u and %u of %u\n", (unsigned)at[0], (unsigned)at[1], (unsigned)at[2],
           (unsigned)at[3], (unsigned)sizeof(struct shapes_reply));
    return failures != 0 || at[0] != 0 || at[1] != 4 || at[2] != 8 || at[3] != 12 || sizeof(struct shapes_reply) != 16;
}
