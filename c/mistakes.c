/* Three of the manual's four mistakes; the fourth is a step file. */
#include <stdio.h>

#include "shapes.h"

/* Room for the largest image, that of the long trail. */
static uint32_t image[SHAPES_WORDS(1027, 3, 1, 1024)];
static size_t words;

static void start(uint32_t S, uint32_t T, uint32_t K, uint32_t E) {
    words = SHAPES_WORDS(S, T, K, E);
    shapes_format(image, words, S, T, K, E);
}

/* A record has a duration, a charge that is an accessor (a getter and a setter), and a release cause. */
static void slot_taken_for_a_count(void) {
    const uint32_t duration = SHAPES_STRING(1), charge = SHAPES_STRING(2), cause = SHAPES_STRING(3);
    const char *storage[] = {"duration", "charge's getter", "charge's setter", "release cause"};
    uint32_t shape, count, slot;
    start(4, 1, 3, 3);
    shape = shapes_root(image, words).first;
    shape = shapes_insert(image, words, shape, duration, 7).first;
    shape = shapes_insert(image, words, shape, charge, 14).first;
    count = shapes_property_count(image, words, shape).first;
    shape = shapes_insert(image, words, shape, cause, 7).first;
    slot = shapes_lookup(image, words, shape, cause).second;
    printf("keys before the release cause: %u; that place holds the %s\n", (unsigned)count, storage[count]);
    printf("slot of the release cause: %u; that place holds the %s\n", (unsigned)slot, storage[slot]);
}

static void tell_step(unsigned step, struct shapes_reply r) {
    const char *state = shapes_is_shared(image, words, r.first).first == 1 ? "shared" : "unique";
    printf("step %u: shape %u, %s, transition count %u\n", step, (unsigned)r.first, state, (unsigned)r.third);
}

/* Each step changes the prototype. The last one is made twice, as by two objects that are built alike. */
static void long_trail_believed_shared(void) {
    struct shapes_reply r;
    uint32_t before = 0, step;
    start(1027, 3, 1, 1024);
    r = shapes_root(image, words);
    for (step = 1; step <= 1024; step++) {
        before = r.first;
        r = shapes_set_prototype(image, words, before, step);
        if (step >= 1022) tell_step(step, r);
    }
    tell_step(1024, shapes_set_prototype(image, words, before, 1024));
}

static unsigned edges_in_use(void) {
    unsigned used = 0;
    size_t at;
    for (at = image[6]; at < words; at += 5) used += image[at] != 0;
    return used;
}

/* The root is shape 1, whose words start at 8; the last of ten is the counter of prototype edges. */
static void tell_counter(unsigned children) {
    printf("child %u: counter %u, edges %u\n", children, (unsigned)image[8 + 9], edges_in_use());
}

/* Each child is released and swept at once, so that its edge is dead. */
static void counter_believed_to_stop(void) {
    uint32_t root, n;
    start(2, 1, 1, 256);
    root = shapes_root(image, words).first;
    for (n = 1; n <= 258; n++) {
        struct shapes_reply child = shapes_set_prototype(image, words, root, n);
        if (n >= 254) tell_counter(n);
        shapes_release(image, words, child.first);
        shapes_sweep(image, words);
    }
}

int main(void) {
    slot_taken_for_a_count();
    long_trail_believed_shared();
    counter_believed_to_stop();
    return 0;
}
