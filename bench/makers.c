#include "makers.h"

#include <stdlib.h>

#include "measure.h"

struct builder start_image(const struct maker *maker, const char *name, struct limits l) {
    size_t count = SHAPES_WORDS(l.S, l.T, l.K, l.E);
    uint32_t *words = malloc(count * sizeof *words);
    if (words == NULL) stop("no memory", name);
    if (shapes_format(words, count, l.S, l.T, l.K, l.E).refusal != 0) stop("its limits are refused", name);
    return (struct builder){maker, name, words, count, {1, 1, 1}};
}

/* ---- By calls ---- */

static uint32_t given(const struct builder *b, struct shapes_reply reply) {
    if (reply.refusal != 0) stop("a call that makes it was refused", b->name);
    return reply.first;
}

static uint32_t call_fresh(struct builder *b, uint32_t state) {
    return given(b, state == SHARED ? shapes_root(b->words, b->count) : shapes_unique(b->words, b->count));
}

static uint32_t call_child(struct builder *b, uint32_t parent, struct step s) {
    if (s.kind == INSERT_STEP) return given(b, shapes_insert(b->words, b->count, parent, s.label, s.attributes));
    if (s.kind == CONFIGURE_STEP) return given(b, shapes_change(b->words, b->count, parent, s.label, s.attributes));
    return given(b, shapes_set_prototype(b->words, b->count, parent, s.label));
}

static void call_insert(struct builder *b, uint32_t unique, uint32_t key, uint32_t attributes) {
    given(b, shapes_insert(b->words, b->count, unique, key, attributes));
}

static void call_release(struct builder *b, uint32_t n) { given(b, shapes_release(b->words, b->count, n)); }

static void call_sweep(struct builder *b) { given(b, shapes_sweep(b->words, b->count)); }

const struct maker by_calls = {call_fresh, call_child, call_insert, call_release, call_sweep};

/* ---- Quickly ---- */

static uint32_t next_free(const struct builder *b, struct area area, uint32_t *from) {
    *from = lowest_free(b->words, area, *from);
    if (*from == 0) stop("more was made than there is room for", b->name);
    return *from;
}

static uint32_t quick_fresh(struct builder *b, uint32_t state) {
    uint32_t shape = next_free(b, shapes_of(b->words), &b->next.shape);
    make_fresh(b->words, state, shape, next_free(b, tables_of(b->words), &b->next.table));
    b->words[shape_at(b->words, shape) + HOLDS] = 1;
    return shape;
}

static uint32_t quick_child(struct builder *b, uint32_t parent, struct step step) {
    struct places at = {0, 0, 0};
    at.shape = next_free(b, shapes_of(b->words), &b->next.shape);
    if (needs_table(b->words, parent, step)) at.table = next_free(b, tables_of(b->words), &b->next.table);
    at.edge = next_free(b, edges_of(b->words), &b->next.edge);
    make_child(b->words, parent, step, at);
    b->words[shape_at(b->words, at.shape) + HOLDS] = 1;
    return at.shape;
}

static void quick_insert(struct builder *b, uint32_t unique, uint32_t key, uint32_t attributes) {
    uint32_t *shape = b->words + shape_at(b->words, unique);
    append(b->words, table_of(b->words, unique), key, attributes);
    shape[PROPERTIES]++;
    shape[HOLDS]++;
}

static void quick_release(struct builder *b, uint32_t n) { c_release(b->words, n); }

static void quick_sweep(struct builder *b) {
    c_sweep(b->words);
    b->next = (struct places){1, 1, 1};
}

const struct maker quickly = {quick_fresh, quick_child, quick_insert, quick_release, quick_sweep};

void add_dead_edge(struct builder *b, uint32_t parent, uint32_t kind, uint32_t label, uint32_t attributes) {
    uint32_t *edge = b->words + edge_at(b->words, next_free(b, edges_of(b->words), &b->next.edge));
    edge[PARENT] = parent;
    edge[KIND] = kind;
    edge[LABEL] = label;
    edge[EDGE_ATTRIBUTES] = attributes;
}
