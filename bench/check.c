#include "check.h"

#include <stdio.h>
#include <stdlib.h>
#include <string.h>

#include "images.h"
#include "inner_c.h"
#include "measure.h"

enum { MOST_WORDS = SHAPES_WORDS(1100, 3, 1100, 1100) };

/* The same image twice: one for the library, one for C. */
static uint32_t ours[MOST_WORDS], theirs[MOST_WORDS];
static size_t words;

static void start(uint32_t S, uint32_t T, uint32_t K, uint32_t E) {
    words = SHAPES_WORDS(S, T, K, E);
    if (words > MOST_WORDS || shapes_format(ours, words, S, T, K, E).refusal != 0) stop("a bad size", "check.c");
    memcpy(theirs, ours, words * sizeof *ours);
}

/* Answers the shape that both gave. */
static uint32_t same(const char *call, struct shapes_reply is, struct shapes_reply wanted) {
    if (memcmp(&is, &wanted, sizeof is) != 0) stop("C and the library answer differently", call);
    if (memcmp(ours, theirs, words * sizeof *ours) != 0) stop("C and the library leave different words", call);
    return is.first;
}

static uint32_t any(uint32_t below) {
    static uint32_t state = 1;
    state = state * 1664525 + 1013904223;
    return (state >> 16) % below;
}

static void check_insert(uint32_t n, uint32_t key, uint32_t attributes) {
    same("insert", c_insert(theirs, n, key, attributes), shapes_insert(ours, words, n, key, attributes));
}

static void check_change(uint32_t n, uint32_t key, uint32_t attributes) {
    struct shapes_reply held = shapes_lookup(ours, words, n, key);
    if (held.first == 1 && width_of(held.third) != width_of(attributes)) return;
    same("change", c_change(theirs, n, key, attributes), shapes_change(ours, words, n, key, attributes));
}

static void check_prototype(uint32_t n, uint32_t to) {
    struct shapes_reply shared = shapes_is_shared(ours, words, n);
    if (shared.refusal == 0 && shared.first == 0) return;
    same("set_prototype", c_set_prototype(theirs, n, to), shapes_set_prototype(ours, words, n, to));
}

/* Few keys, attributes and shapes, so that steps are taken again; now and then bad ones. */
static void check_any_call(void) {
    uint32_t n = any(ours[SHAPE_COUNT] + 1), key = any(3) | (any(16) == 0 ? 3 : any(2)) << 30;
    uint32_t attributes = any(4) == 0 ? any(33) : 7;
    switch (any(16)) {
    case 0: same("root", c_root(theirs), shapes_root(ours, words)); break;
    case 1: same("unique", c_unique(theirs), shapes_unique(ours, words)); break;
    case 2:
    case 3: check_change(n, key, attributes); break;
    case 4:
    case 5: check_prototype(n, any(3)); break;
    case 6:
    case 7: same("sweep", c_sweep(theirs), shapes_sweep(ours, words)); break;
    case 8: same("lookup", c_lookup(theirs, n, key), shapes_lookup(ours, words, n, key)); break;
    case 9:
    case 10: same("release", c_release(theirs, n), shapes_release(ours, words, n)); break;
    default: check_insert(n, key, attributes);
    }
}

/* So little room that refusals 2 to 10 are all met, and dead edges, with room for another edge and without. */
static void check_any_calls(void) {
    for (int round = 0; round < 300; round++) {
        start(2 + any(8), 1 + any(6), 1 + any(4), 1 + any(8));
        for (int i = 0; i < 100; i++) check_any_call();
    }
}

static uint32_t both_insert(uint32_t n, uint32_t key) {
    return same("insert", c_insert(theirs, n, key, 7), inner_insert(ours, words, n, key, 7));
}

/* "Step 1,023 is shared; step 1,024 answers a unique", along new edges and then along the live one. */
static void check_limit(void) {
    start(1028, 3, 1100, 1024);
    uint32_t last = 0, n = same("root", c_root(theirs), shapes_root(ours, words));
    for (uint32_t key = 0; key < 1024; key++) n = both_insert(last = n, key);
    if (theirs[shape_at(theirs, n) + STATE] != UNIQUE) stop("step 1,024 gave no unique", "check.c");
    both_insert(last, 1023);
}

/* "the counter wraps from 255 to 0": so many children of one shape, all swept. */
static void check_counter(void) {
    start(4, 3, 4, 600);
    uint32_t root = same("root", c_root(theirs), shapes_root(ours, words));
    for (uint32_t key = 0; key < 300; key++) {
        uint32_t child = both_insert(root, key);
        same("release", c_release(theirs, child), shapes_release(ours, words, child));
        same("sweep", c_sweep(theirs), inner_sweep(ours, words));
    }
    both_insert(root, 299);
}

static void fill_holds(uint32_t n) {
    ours[shape_at(ours, n) + HOLDS] = theirs[shape_at(theirs, n) + HOLDS] = 65535;
}

/* "the result already has 65,535 holds": at the end of a live edge, and a unique shape. */
static void check_full_holds(void) {
    start(3, 2, 1, 1);
    uint32_t root = same("root", c_root(theirs), shapes_root(ours, words));
    fill_holds(both_insert(root, 1));
    both_insert(root, 1);
    uint32_t unique = same("unique", c_unique(theirs), shapes_unique(ours, words));
    fill_holds(unique);
    both_insert(unique, 1);
}

void check_calls(void) {
    check_any_calls();
    check_limit();
    check_counter();
    check_full_holds();
}

void check_images(void) {
    const struct limits limits = {256, 32, 32, 256};
    for (int numbering = IN_TURN; numbering <= SCATTERED; numbering++) {
        struct image called = make_full(&by_calls, "check.c", limits, numbering);
        struct image quick = make_full(&quickly, "check.c", limits, numbering);
        if (memcmp(called.words, quick.words, called.count * sizeof *called.words) != 0)
            stop("an image made quickly differs from the one that calls make", "check.c");
        free_image(&called);
        free_image(&quick);
    }
}
