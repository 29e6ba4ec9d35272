#include "public.h"

#include <stdio.h>
#include <stdlib.h>
#include <string.h>

#include "table.h"

/* ---- The calls ---- */

static struct shapes_reply is_sound(struct image *i) { return shapes_is_sound(i->words, i->count); }

static struct shapes_reply format(struct image *i) {
    const uint32_t *limits = i->words;
    return shapes_format(i->words, i->count, limits[SHAPE_COUNT], limits[TABLE_COUNT], limits[KEY_LIMIT],
                         limits[EDGE_COUNT]);
}

static struct shapes_reply root(struct image *i) { return shapes_root(i->words, i->count); }

static struct shapes_reply unique(struct image *i) { return shapes_unique(i->words, i->count); }

static struct shapes_reply insert(struct image *i) {
    return shapes_insert(i->words, i->count, i->at.before, i->at.insert.label, i->at.insert.attributes);
}

static struct shapes_reply change(struct image *i) {
    return shapes_change(i->words, i->count, i->at.tip, i->at.change.label, i->at.change.attributes);
}

static struct shapes_reply removal(struct image *i) {
    return shapes_remove(i->words, i->count, i->at.tip, i->at.insert.label);
}

static struct shapes_reply set_prototype(struct image *i) {
    return shapes_set_prototype(i->words, i->count, i->at.tip, i->at.prototype.label);
}

static struct shapes_reply hold(struct image *i) { return shapes_hold(i->words, i->count, i->at.tip); }

static struct shapes_reply previous(struct image *i) { return shapes_previous(i->words, i->count, i->at.tip); }

static struct shapes_reply release(struct image *i) { return shapes_release(i->words, i->count, i->at.tip); }

static struct shapes_reply sweep(struct image *i) { return shapes_sweep(i->words, i->count); }

static struct shapes_reply lookup(struct image *i) {
    return shapes_lookup(i->words, i->count, i->at.tip, i->at.insert.label);
}

static struct shapes_reply keys(struct image *i) {
    static uint32_t out[2048];
    return shapes_keys(i->words, i->count, i->at.tip, out, sizeof out / sizeof *out);
}

static struct shapes_reply prototype(struct image *i) { return shapes_prototype(i->words, i->count, i->at.tip); }

static struct shapes_reply is_shared(struct image *i) { return shapes_is_shared(i->words, i->count, i->at.tip); }

static struct shapes_reply transition_count(struct image *i) {
    return shapes_transition_count(i->words, i->count, i->at.tip);
}

static struct shapes_reply property_count(struct image *i) {
    return shapes_property_count(i->words, i->count, i->at.tip);
}

/* What the call has to answer on an empty image, and on a full one. */
struct call {
    const char *name;
    struct shapes_reply (*make)(struct image *);
    int changes_words;
    uint32_t when_empty, when_full;
};

static const struct call calls[] = {
    {"is_sound", is_sound, 0, 0, 0},
    {"format", format, 1, 0, 0},
    {"root", root, 1, 0, SHAPES_SHAPES_FULL},
    {"unique", unique, 1, 0, SHAPES_SHAPES_FULL},
    {"insert", insert, 1, SHAPES_NO_SHAPE, 0},
    {"change", change, 1, SHAPES_NO_SHAPE, 0},
    {"remove", removal, 1, SHAPES_NO_SHAPE, 0},
    {"set_prototype", set_prototype, 1, SHAPES_NO_SHAPE, 0},
    {"hold", hold, 1, SHAPES_NO_SHAPE, 0},
    {"previous", previous, 1, SHAPES_NO_SHAPE, 0},
    {"release", release, 1, SHAPES_NO_SHAPE, 0},
    {"sweep", sweep, 1, 0, 0},
    {"lookup", lookup, 0, SHAPES_NO_SHAPE, 0},
    {"keys", keys, 0, SHAPES_NO_SHAPE, 0},
    {"prototype", prototype, 0, SHAPES_NO_SHAPE, 0},
    {"is_shared", is_shared, 0, SHAPES_NO_SHAPE, 0},
    {"transition_count", transition_count, 0, SHAPES_NO_SHAPE, 0},
    {"property_count", property_count, 0, SHAPES_NO_SHAPE, 0},
};

/* ---- Measuring one ---- */

struct trial {
    struct image image;
    uint32_t *saved;
    const struct call *call;
    uint32_t refusal;
};

static void run_call(void *on) {
    struct trial *t = on;
    t->refusal = t->call->make(&t->image).refusal;
}

static void restore_words(void *on) {
    struct trial *t = on;
    memcpy(t->image.words, t->saved, t->image.count * sizeof *t->saved);
}

static void run_pass(void *on) {
    const struct trial *t = on;
    plain_pass(t->image.words, t->image.count);
}

static struct work the_call(struct trial *t) {
    return (struct work){run_call, t->call->changes_words ? restore_words : NULL, t};
}

static struct work the_pass(struct trial *t) { return (struct work){run_pass, NULL, t}; }

/* Makes the call once, unmeasured: the words are then in the caches, and the answer is looked at. */
static void try_call(struct trial *t, uint32_t refusal) {
    run_call(t);
    if (t->call->changes_words) restore_words(t);
    if (t->refusal == refusal) return;
    fprintf(stderr, "%s answers refusal %u, not %u\n", t->call->name, (unsigned)t->refusal, (unsigned)refusal);
    stop("is not what it should be", t->image.name);
}

static void measure_call(struct trial *t, uint32_t refusal, double target, struct effort effort) {
    char name[64], answer[32] = "";
    try_call(t, refusal);
    if (refusal != 0) snprintf(answer, sizeof answer, ", refused by %u", (unsigned)refusal);
    snprintf(name, sizeof name, "%s%s", t->call->name, answer);
    print_row(t->image.name, t->image.count, name, compare(the_call(t), the_pass(t), effort), 1, target);
}

void measure_calls(struct image image, double target, struct effort effort) {
    struct trial t = {image, malloc(image.count * sizeof *image.words), calls, 0};
    if (t.saved == NULL) stop("no memory", image.name);
    memcpy(t.saved, image.words, image.count * sizeof *image.words);
    for (size_t i = 0; i < sizeof calls / sizeof *calls; i++) {
        t.call = &calls[i];
        measure_call(&t, image.at.tip == 0 ? t.call->when_empty : t.call->when_full, i == 0 ? target : 0, effort);
    }
    free(t.saved);
    free_image(&image);
}

void measure_test(struct image image, int sound, double target, struct effort effort) {
    struct trial t = {image, NULL, calls, 0};
    measure_call(&t, sound ? 0 : SHAPES_DAMAGED, target, effort);
    free_image(&image);
}

void measure_growth(struct image small, struct image large, struct effort effort) {
    const double linear_within_a_quarter = 1.25;
    struct trial s = {small, NULL, calls, 0}, l = {large, NULL, calls, 0};
    double words = (double)large.count / (double)small.count;
    char name[64];
    try_call(&s, 0);
    try_call(&l, 0);
    snprintf(name, sizeof name, "is_sound, words x %.2f", words);
    print_row(large.name, large.count, name, compare(the_call(&l), the_call(&s), effort), 1,
              words * linear_within_a_quarter);
    print_row("", large.count, "plain pass", compare(the_pass(&l), the_pass(&s), effort), 1, 0);
    free_image(&small);
    free_image(&large);
}
