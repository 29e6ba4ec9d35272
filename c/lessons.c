/* Document 01's lesson sheet, and each refusal, from C. Every expected number was written by hand from the document.
 * "The lowest free place is always taken", so that it also says which number each new shape has. */
#include <stdio.h>
#include <string.h>

#include "shapes.h"

/* Room for the largest image, that of lesson 10. */
enum { MOST_WORDS = SHAPES_WORDS(1026, 2, 1, 1024) };

static uint32_t image[MOST_WORDS], saved[MOST_WORDS];
static size_t words;
static int failures;

static const uint32_t a = SHAPES_STRING(1), b = SHAPES_STRING(2), c = SHAPES_STRING(3);
static const uint32_t s = SHAPES_SYMBOL(4), index5 = SHAPES_INDEX(5), bad_key = (uint32_t)3 << 30;

static void same(int line, uint32_t is, uint32_t expected) {
    if (is == expected) return;
    failures++;
    fprintf(stderr, "lessons.c:%d: %u, expected %u\n", line, (unsigned)is, (unsigned)expected);
}

static void numbers(int line, struct shapes_reply r, uint32_t refusal, uint32_t first, uint32_t second,
                    uint32_t third) {
    same(line, r.refusal, refusal);
    same(line, r.first, first);
    same(line, r.second, second);
    same(line, r.third, third);
}

static void unchanged(int line) {
    if (memcmp(image, saved, sizeof image) == 0) return;
    failures++;
    fprintf(stderr, "lessons.c:%d: a lent word has changed\n", line);
}

#define GIVES(call, shape, action, count) numbers(__LINE__, call, 0, shape, action, count)
#define FREES(call, shapes, tables) numbers(__LINE__, call, 0, shapes, tables, 0)
#define IS(call, number) numbers(__LINE__, call, 0, number, 0, 0)
#define DONE(call) numbers(__LINE__, call, 0, 0, 0, 0)
#define SLOT(shape, key, slot, attributes) \
    numbers(__LINE__, shapes_lookup(image, words, shape, key), 0, 1, slot, attributes)
#define NO_SLOT(shape, key) DONE(shapes_lookup(image, words, shape, key))
#define SAME(is, expected) same(__LINE__, is, expected)

/* "Every one returns its number and 0 for all else, and leaves all lent words unchanged" */
#define REFUSED(number, call) \
    (memcpy(saved, image, sizeof image), numbers(__LINE__, call, number, 0, 0, 0), unchanged(__LINE__))

#define INSERT(shape, key, attributes) shapes_insert(image, words, shape, key, attributes)
#define CHANGE(shape, key, attributes) shapes_change(image, words, shape, key, attributes)
#define REMOVE(shape, key) shapes_remove(image, words, shape, key)
#define PROTOTYPE(shape, to) shapes_set_prototype(image, words, shape, to)

static void start(uint32_t S, uint32_t T, uint32_t K, uint32_t E) {
    words = SHAPES_WORDS(S, T, K, E);
    DONE(shapes_format(image, words, S, T, K, E));
}

/* A word of a shape's record, which has ten. */
enum { STATE = 0, HOLDS = 1, TRANSITIONS = 4, PROPERTY_COUNTER = 8, PROTOTYPE_COUNTER = 9 };

static uint32_t *word_of(uint32_t shape, uint32_t which) { return &image[8 + 10 * (shape - 1) + which]; }

/* An image with a root, which is shape 1. */
static void start_at_root(uint32_t S, uint32_t T, uint32_t K, uint32_t E) {
    start(S, T, K, E);
    GIVES(shapes_root(image, words), 1, 0, 0);
}

/* a 7, b 14, c 7: shapes 2, 3, 4. */
static void start_with_abc(void) {
    start_at_root(16, 8, 4, 16);
    GIVES(INSERT(1, a, 7), 2, 0, 1);
    GIVES(INSERT(2, b, 14), 3, 0, 2);
    GIVES(INSERT(3, c, 7), 4, 0, 3);
}

/* "a 7, b 14, c 7: indices 0, 1, 3." */
static void lesson_1(void) {
    start_with_abc();
    SLOT(4, a, 0, 7);
    SLOT(4, b, 1, 14);
    SLOT(4, c, 3, 7);
    IS(shapes_property_count(image, words, 4), 3);
    IS(shapes_transition_count(image, words, 4), 3);
    NO_SLOT(3, c); /* the shapes share a table; shape 3 has only its first two keys */
}

/* "then remove b: a 0, c 1; transition count 2." */
static void lesson_2(void) {
    start_with_abc();
    GIVES(REMOVE(4, b), 5, 0, 2);
    SLOT(5, a, 0, 7);
    NO_SLOT(5, b);
    SLOT(5, c, 1, 7);
}

/* "from 1, b to 7: Remove; indices 0, 1, 2." */
static void lesson_3(void) {
    start_with_abc();
    GIVES(CHANGE(4, b, 7), 6, SHAPES_ACTION_REMOVE, 3);
    SLOT(6, a, 0, 7);
    SLOT(6, b, 1, 7);
    SLOT(6, c, 2, 7);
}

/* "from 1, a to 5: Nothing, count 4; then remove c: a is 7 again, and the shape is the one that stood before c." */
static void lesson_4(void) {
    start_with_abc();
    GIVES(CHANGE(4, a, 5), 5, SHAPES_ACTION_NOTHING, 4);
    SLOT(5, a, 0, 5);
    GIVES(REMOVE(5, c), 3, 0, 2);
    SLOT(3, a, 0, 7);
}

/* "a 7, b 7, b to 5, remove a: b has 5, index 0." */
static void lesson_5(void) {
    start_at_root(16, 8, 4, 16);
    GIVES(INSERT(1, a, 7), 2, 0, 1);
    GIVES(INSERT(2, b, 7), 3, 0, 2);
    GIVES(CHANGE(3, b, 5), 4, SHAPES_ACTION_NOTHING, 3);
    GIVES(REMOVE(4, a), 5, 0, 1);
    SLOT(5, b, 0, 5);
    NO_SLOT(5, a);
}

/* "a 7, b 7, prototype 9, c 7, prototype 0, remove a: prototype 0, b, c; count 3." */
static void lesson_6(void) {
    start_at_root(16, 8, 4, 16);
    GIVES(INSERT(1, a, 7), 2, 0, 1);
    GIVES(INSERT(2, b, 7), 3, 0, 2);
    GIVES(PROTOTYPE(3, 9), 4, 0, 3);
    GIVES(INSERT(4, c, 7), 5, 0, 4);
    GIVES(PROTOTYPE(5, 0), 6, 0, 5);
    IS(shapes_prototype(image, words, 5), 9);
    GIVES(REMOVE(6, a), 9, 0, 3);
    IS(shapes_prototype(image, words, 9), 0);
    IS(shapes_property_count(image, words, 9), 2);
    SLOT(9, b, 0, 7);
    SLOT(9, c, 1, 7);
}

/* "unique a 14, b 7, c 7 (0, 2, 3), remove a: b 0, c 1; the old one empty, prototype 0." With prototype 9 before. */
static void lesson_7(void) {
    start(16, 8, 4, 16);
    GIVES(shapes_unique(image, words), 1, 0, 0);
    GIVES(PROTOTYPE(1, 9), 2, 0, 0);
    GIVES(INSERT(2, a, 14), 2, 0, 0);
    GIVES(INSERT(2, b, 7), 2, 0, 0);
    GIVES(INSERT(2, c, 7), 2, 0, 0);
    SLOT(2, a, 0, 14);
    SLOT(2, b, 2, 7);
    SLOT(2, c, 3, 7);
    GIVES(REMOVE(2, a), 3, 0, 0);
    SLOT(3, b, 0, 7);
    SLOT(3, c, 1, 7);
    IS(shapes_prototype(image, words, 3), 9);
    IS(shapes_property_count(image, words, 2), 0);
    IS(shapes_prototype(image, words, 2), 0);
}

/* "unique a 7, b 7, a to 14: Insert; a 0, b 2." */
static void lesson_8(void) {
    start(16, 8, 4, 16);
    GIVES(shapes_unique(image, words), 1, 0, 0);
    GIVES(INSERT(1, a, 7), 1, 0, 0);
    GIVES(INSERT(1, b, 7), 1, 0, 0);
    GIVES(CHANGE(1, a, 14), 2, SHAPES_ACTION_INSERT, 0);
    SLOT(2, a, 0, 14);
    SLOT(2, b, 2, 7);
    IS(shapes_is_shared(image, words, 2), 0);
}

/* "symbol s, string a, index 5, string b, all 7: list a, b, s." The rest of the lent slice is unchanged, and all
 * of it where the call is refused. */
static void lesson_9(void) {
    uint32_t out[5] = {91, 92, 93, 94, 95};
    start_at_root(16, 8, 4, 16);
    GIVES(INSERT(1, s, 7), 2, 0, 1);
    GIVES(INSERT(2, a, 7), 3, 0, 2);
    GIVES(INSERT(3, index5, 7), 4, 0, 3);
    GIVES(INSERT(4, b, 7), 5, 0, 4);
    REFUSED(SHAPES_OUT_SHORT, shapes_keys(image, words, 5, out, 2));
    SAME(out[0], 91);
    SAME(out[1], 92);
    IS(shapes_keys(image, words, 5, out, 4), 3);
    SAME(out[0], a);
    SAME(out[1], b);
    SAME(out[2], s);
    SAME(out[3], 94);
    SAME(out[4], 95);
}

/* "Step 1,023 is shared; step 1,024 answers a unique", which "copies its keys and prototype ..; the shared one stays,
 * unheld". Step 1 inserts a key, each later one changes the prototype; step n makes shape n + 1. */
static void lesson_10(void) {
    uint32_t step;
    start_at_root(1026, 2, 1, 1024);
    GIVES(INSERT(1, a, 14), 2, 0, 1);
    for (step = 2; step <= 1023; step++) GIVES(PROTOTYPE(step, step), step + 1, 0, step);
    IS(shapes_is_shared(image, words, 1024), 1);
    IS(shapes_transition_count(image, words, 1024), 1023);
    GIVES(PROTOTYPE(1024, 9), 1026, 0, 0);
    IS(shapes_is_shared(image, words, 1026), 0);
    IS(shapes_prototype(image, words, 1026), 9);
    SLOT(1026, a, 0, 14);
    SAME(*word_of(1025, STATE), 1);
    SAME(*word_of(1025, TRANSITIONS), 1024);
    REFUSED(SHAPES_NO_SHAPE, shapes_hold(image, words, 1025));
}

/* "255 new children of one kind leave the counter at 255; the 256th leaves 0." Each kind has a counter of its own. */
static void lesson_11(void) {
    uint32_t n;
    start_at_root(513, 256, 1, 512);
    for (n = 1; n <= 255; n++) GIVES(INSERT(1, n, 7), n + 1, 0, 1);
    SAME(*word_of(1, PROPERTY_COUNTER), 255);
    GIVES(INSERT(1, 256, 7), 257, 0, 1);
    SAME(*word_of(1, PROPERTY_COUNTER), 0);
    for (n = 1; n <= 255; n++) GIVES(PROTOTYPE(1, n), n + 257, 0, 1);
    SAME(*word_of(1, PROTOTYPE_COUNTER), 255);
    GIVES(PROTOTYPE(1, 256), 513, 0, 1);
    SAME(*word_of(1, PROTOTYPE_COUNTER), 0);
    SAME(*word_of(1, PROPERTY_COUNTER), 0);
}

/* Holds "equal grants less releases". The root's table stays with the root, a unique's goes with it. */
static void holds(void) {
    start_at_root(16, 8, 4, 16);
    GIVES(INSERT(1, a, 7), 2, 0, 1);
    GIVES(shapes_previous(image, words, 2), 1, 0, 0);
    SAME(*word_of(1, HOLDS), 2);
    DONE(shapes_previous(image, words, 1));
    GIVES(shapes_hold(image, words, 2), 2, 0, 1);
    SAME(*word_of(2, HOLDS), 2);
    GIVES(shapes_unique(image, words), 3, 0, 0);
    DONE(shapes_release(image, words, 3));
    DONE(shapes_release(image, words, 2));
    FREES(shapes_sweep(image, words), 1, 1);
    DONE(shapes_release(image, words, 2));
    REFUSED(SHAPES_NO_SHAPE, shapes_release(image, words, 2));
    FREES(shapes_sweep(image, words), 1, 0);
    DONE(shapes_is_sound(image, words));
}

/* Refusals 2 to 6: what is asked for. */
static void refusals_of_arguments(void) {
    start_at_root(16, 8, 4, 16);
    GIVES(INSERT(1, a, 7), 2, 0, 1);
    REFUSED(SHAPES_BAD_KEY, INSERT(2, bad_key, 7));
    REFUSED(SHAPES_BAD_KEY, shapes_lookup(image, words, 2, bad_key));
    REFUSED(SHAPES_BAD_ATTRIBUTES, INSERT(2, b, 32));
    REFUSED(SHAPES_NO_SHAPE, INSERT(0, b, 7));
    REFUSED(SHAPES_NO_SHAPE, shapes_hold(image, words, 17));
    REFUSED(SHAPES_NO_SHAPE, shapes_prototype(image, words, 3));
    REFUSED(SHAPES_PRESENT, INSERT(2, a, 7));
    REFUSED(SHAPES_ABSENT, CHANGE(2, b, 7));
    REFUSED(SHAPES_ABSENT, REMOVE(1, a));
}

/* Refusals 7 to 12: no room. A root and its child with a key fill two shapes, one table and one edge. */
static void refusals_of_room(void) {
    uint32_t n;
    start_at_root(2, 1, 1, 1);
    GIVES(INSERT(1, a, 7), 2, 0, 1);
    REFUSED(SHAPES_KEYS_FULL, INSERT(2, b, 7));
    REFUSED(SHAPES_SHAPES_FULL, CHANGE(2, a, 5));
    for (n = 2; n <= 65535; n++) GIVES(shapes_hold(image, words, 2), 2, 0, 1);
    REFUSED(SHAPES_HOLDS_FULL, shapes_hold(image, words, 2));
    REFUSED(SHAPES_HOLDS_FULL, INSERT(1, a, 7));
    start_at_root(3, 1, 1, 1);
    GIVES(INSERT(1, a, 7), 2, 0, 1);
    REFUSED(SHAPES_TABLES_FULL, CHANGE(2, a, 5));
    start_at_root(3, 2, 1, 1);
    GIVES(INSERT(1, a, 7), 2, 0, 1);
    REFUSED(SHAPES_EDGES_FULL, CHANGE(2, a, 5));
    REFUSED(SHAPES_BAD_SIZE, shapes_format(image, words - 1, 3, 2, 1, 1));
    REFUSED(SHAPES_BAD_SIZE, shapes_format(image, SHAPES_WORDS(3, 0, 1, 1), 3, 0, 1, 1));
}

/* Refusal 1: "Each call tests soundness first", here of an image whose root says that it has a transition. */
static void refusals_of_damage(void) {
    uint32_t out[1] = {91};
    start_at_root(16, 8, 4, 16);
    DONE(shapes_is_sound(image, words));
    *word_of(1, TRANSITIONS) = 1;
    REFUSED(SHAPES_DAMAGED, shapes_is_sound(image, words));
    REFUSED(SHAPES_DAMAGED, shapes_root(image, words));
    REFUSED(SHAPES_DAMAGED, shapes_unique(image, words));
    REFUSED(SHAPES_DAMAGED, INSERT(1, bad_key, 32));
    REFUSED(SHAPES_DAMAGED, CHANGE(1, a, 7));
    REFUSED(SHAPES_DAMAGED, REMOVE(1, a));
    REFUSED(SHAPES_DAMAGED, PROTOTYPE(1, 9));
    REFUSED(SHAPES_DAMAGED, shapes_hold(image, words, 1));
    REFUSED(SHAPES_DAMAGED, shapes_release(image, words, 1));
    REFUSED(SHAPES_DAMAGED, shapes_previous(image, words, 1));
    REFUSED(SHAPES_DAMAGED, shapes_sweep(image, words));
    REFUSED(SHAPES_DAMAGED, shapes_lookup(image, words, 1, a));
    REFUSED(SHAPES_DAMAGED, shapes_keys(image, words, 1, out, 1));
    SAME(out[0], 91);
    REFUSED(SHAPES_DAMAGED, shapes_prototype(image, words, 1));
    REFUSED(SHAPES_DAMAGED, shapes_is_shared(image, words, 1));
    REFUSED(SHAPES_DAMAGED, shapes_transition_count(image, words, 1));
    REFUSED(SHAPES_DAMAGED, shapes_property_count(image, words, 1));
}

struct lesson {
    const char *name;
    void (*run)(void);
};

static const struct lesson lessons[] = {
    {"lesson 1", lesson_1},
    {"lesson 2", lesson_2},
    {"lesson 3", lesson_3},
    {"lesson 4", lesson_4},
    {"lesson 5", lesson_5},
    {"lesson 6", lesson_6},
    {"lesson 7", lesson_7},
    {"lesson 8", lesson_8},
    {"lesson 9", lesson_9},
    {"lesson 10", lesson_10},
    {"lesson 11", lesson_11},
    {"holds, previous, release, sweep", holds},
    {"refusals 2 to 6", refusals_of_arguments},
    {"refusals 7 to 12", refusals_of_room},
    {"refusal 1", refusals_of_damage},
};

int main(void) {
    size_t i, count = sizeof lessons / sizeof lessons[0], failed = 0;
    for (i = 0; i < count; i++) {
        failures = 0;
        lessons[i].run();
        printf("%s: %s\n", lessons[i].name, failures == 0 ? "holds" : "DOES NOT HOLD");
        failed += failures != 0;
    }
    printf("%u of %u hold\n", (unsigned)(count - failed), (unsigned)count);
    return failed != 0;
}
