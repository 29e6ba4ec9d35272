#include "inner.h"

#include <stdlib.h>
#include <string.h>

#include "inner_c.h"
#include "table.h"

enum { MOST_ASKED = 1000 };

/* The calls that one run makes, and what they answered: a sum, so that no answer is left out. */
struct scene {
    struct image image;
    uint32_t *saved;
    struct {
        uint32_t shape, key, attributes;
    } asked[MOST_ASKED];
    size_t count;
    uint32_t answers;
};

static void note(struct scene *s, struct shapes_reply r) {
    s->answers = s->answers * 31 + r.refusal + r.first + r.second + r.third;
}

static void library_inserts(void *on) {
    struct scene *s = on;
    for (size_t i = 0; i < s->count; i++)
        note(s, inner_insert(s->image.words, s->image.count, s->asked[i].shape, s->asked[i].key,
                             s->asked[i].attributes));
}

static void c_inserts(void *on) {
    struct scene *s = on;
    for (size_t i = 0; i < s->count; i++)
        note(s, c_insert(s->image.words, s->asked[i].shape, s->asked[i].key, s->asked[i].attributes));
}

static void library_lookups(void *on) {
    struct scene *s = on;
    for (size_t i = 0; i < s->count; i++)
        note(s, inner_lookup(s->image.words, s->image.count, s->asked[i].shape, s->asked[i].key));
}

static void c_lookups(void *on) {
    struct scene *s = on;
    for (size_t i = 0; i < s->count; i++) note(s, c_lookup(s->image.words, s->asked[i].shape, s->asked[i].key));
}

static void library_sweeps(void *on) {
    struct scene *s = on;
    note(s, inner_sweep(s->image.words, s->image.count));
}

static void c_sweeps(void *on) {
    struct scene *s = on;
    note(s, c_sweep(s->image.words));
}

/* ---- Measuring ---- */

static void restore(void *on) {
    struct scene *s = on;
    memcpy(s->image.words, s->saved, s->image.count * sizeof *s->saved);
}

static struct scene *start_scene(struct image image) {
    struct scene *s = malloc(sizeof *s);
    if (s == NULL || (s->saved = malloc(image.count * sizeof *image.words)) == NULL) stop("no memory", image.name);
    s->image = image;
    s->count = 0;
    return s;
}

static void end_scene(struct scene *s) {
    free_image(&s->image);
    free(s->saved);
    free(s);
}

static void ask(struct scene *s, uint32_t shape, uint32_t key, uint32_t attributes) {
    if (s->count == MOST_ASKED) return;
    s->asked[s->count].shape = shape;
    s->asked[s->count].key = key;
    s->asked[s->count].attributes = attributes;
    s->count++;
}

/* Whether both leave the same words and answers. */
static void check_same(struct scene *s, struct work library, struct work c) {
    size_t bytes = s->image.count * sizeof *s->saved;
    uint32_t *left = malloc(bytes);
    if (left == NULL) stop("no memory", s->image.name);
    s->answers = 0;
    library.run(s);
    uint32_t answers = s->answers;
    memcpy(left, s->image.words, bytes);
    restore(s);
    s->answers = 0;
    c.run(s);
    if (answers != s->answers || memcmp(left, s->image.words, bytes) != 0)
        stop("C and the library differ", s->image.name);
    restore(s);
    free(left);
}

static void measure(struct scene *s, const char *call, void (*library)(void *), void (*c)(void *),
                    struct effort effort) {
    const double target = 2;
    struct work l = {library, restore, s}, base = {c, restore, s};
    if (shapes_is_sound(s->image.words, s->image.count).refusal != 0) stop("is not sound", s->image.name);
    memcpy(s->saved, s->image.words, s->image.count * sizeof *s->saved);
    check_same(s, l, base);
    print_row(s->image.name, s->image.count, call, compare(l, base, effort), s->count, target);
}

/* ---- The images ---- */

/* The inserts that made up to 64 of the children, from all over the edges. Their parents are held for it. */
static void ask_along_live_edges(struct scene *s) {
    uint32_t *words = s->image.words;
    uint32_t apart = 1 + words[EDGE_COUNT] / 64;
    for (uint32_t e = 1; e <= words[EDGE_COUNT]; e += apart) {
        const uint32_t *edge = words + edge_at(words, e);
        if (edge[CHILD] == 0 || words[shape_at(words, edge[CHILD]) + STEP] != INSERT_STEP) continue;
        words[shape_at(words, edge[PARENT]) + HOLDS]++;
        ask(s, edge[PARENT], edge[LABEL], edge[EDGE_ATTRIBUTES]);
    }
}

/* Every other shape loses its holds. */
static void let_go(struct scene *s) {
    uint32_t *words = s->image.words;
    for (uint32_t n = 1; n <= words[SHAPE_COUNT]; n += 2) words[shape_at(words, n) + HOLDS] = 0;
}

void measure_inner_on_full(struct image image, struct effort effort) {
    struct scene *s = start_scene(image);
    ask_along_live_edges(s);
    measure(s, "insert along a live edge", library_inserts, c_inserts, effort);
    let_go(s);
    s->count = 1;
    measure(s, "sweep", library_sweeps, c_sweeps, effort);
    end_scene(s);
}

/* Of the held shapes, those at the end of their table, or those before. */
static void ask_for_children(struct scene *s, int at_the_end) {
    const uint32_t *words = s->image.words, key = SHAPES_SYMBOL(1);
    for (uint32_t n = 1; n <= words[SHAPE_COUNT]; n++) {
        const uint32_t *shape = words + shape_at(words, n);
        if (shape[HOLDS] == 0) continue;
        if (at_the_end == (words[table_of(words, n)] - 1 == shape[PROPERTIES])) ask(s, n, key, SHAPES_WRITABLE);
    }
}

void measure_inner_on_half_full(struct image image, struct effort effort) {
    struct scene *s = start_scene(image);
    ask_for_children(s, 1);
    measure(s, "insert, child in its table", library_inserts, c_inserts, effort);
    s->count = 0;
    ask_for_children(s, 0);
    measure(s, "insert, child with a copy", library_inserts, c_inserts, effort);
    end_scene(s);
}

void measure_inner_lookup(struct image image, struct effort effort) {
    struct scene *s = start_scene(image);
    size_t table = table_of(image.words, 1);
    for (uint32_t i = 0; i < image.words[KEY_LIMIT]; i++) ask(s, 1, image.words[entry_in(table, i) + KEY], 0);
    measure(s, "lookup of each key", library_lookups, c_lookups, effort);
    end_scene(s);
}
