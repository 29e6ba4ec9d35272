#include "calls.h"

#include <string.h>

enum { MOST_TRANSITIONS = 1024, MOST_HOLDS = 65535, MOST_PLACES = 65535 };

static struct shapes_reply refused(uint32_t refusal) { return (struct shapes_reply){refusal, 0, 0, 0}; }

uint32_t lowest_free(const uint32_t *image, struct area area, uint32_t from) {
    for (uint32_t place = from; place <= area.count; place++)
        if (image[spot(area, place)] == 0) return place;
    return 0;
}

static uint32_t used(const uint32_t *image, struct area area) {
    uint32_t count = 0;
    for (uint32_t place = 1; place <= area.count; place++) count += image[spot(area, place)] != 0;
    return count;
}

/* ---- Refusals and holds ---- */

static int good_key(uint32_t key) { return key >> 30 != 3; }

static int is_held(const uint32_t *image, uint32_t n) {
    return n != 0 && n <= image[SHAPE_COUNT] && image[shape_at(image, n) + HOLDS] != 0;
}

static struct shapes_reply grant(uint32_t *image, uint32_t n) {
    uint32_t *shape = image + shape_at(image, n);
    if (shape[HOLDS] == MOST_HOLDS) return refused(SHAPES_HOLDS_FULL);
    shape[HOLDS]++;
    return (struct shapes_reply){0, n, SHAPES_ACTION_NOTHING, shape[TRANSITIONS]};
}

/* ---- Tables ---- */

/* The entry of one of the shape's own keys, the first of its table; 0 if it lacks the key. */
static size_t find_key(const uint32_t *image, uint32_t n, uint32_t key) {
    size_t table = table_of(image, n);
    uint32_t count = image[shape_at(image, n) + PROPERTIES];
    for (uint32_t position = 0; position < count; position++)
        if (image[entry_in(table, position) + KEY] == key) return entry_in(table, position);
    return 0;
}

void append(uint32_t *image, size_t table, uint32_t key, uint32_t attributes) {
    uint32_t count = image[table] - 1;
    uint32_t *entry = image + entry_in(table, count);
    entry[KEY] = key;
    entry[ATTRIBUTES] = attributes;
    entry[SLOT] = count == 0 ? 0 : entry[SLOT - ENTRY_WORDS] + width_of(entry[ATTRIBUTES - ENTRY_WORDS]);
    image[table]++;
}

static void copy_entries(uint32_t *image, size_t from, size_t to, uint32_t count) {
    image[to] = 1 + count;
    memcpy(image + to + 1, image + from + 1, ENTRY_WORDS * sizeof *image * count);
}

/* ---- Edges ---- */

static uint32_t edge_kind(struct step step) { return step.kind == PROTOTYPE_STEP ? PROTOTYPE_EDGE : PROPERTY_EDGE; }

/* The edge of a step; 0 if there is none. */
static size_t find_edge(const uint32_t *image, uint32_t parent, struct step step) {
    struct area edges = edges_of(image);
    for (uint32_t place = 1; place <= edges.count; place++) {
        const uint32_t *edge = image + spot(edges, place);
        if (edge[PARENT] == parent && edge[KIND] == edge_kind(step) && edge[LABEL] == step.label &&
            edge[EDGE_ATTRIBUTES] == step.attributes)
            return spot(edges, place);
    }
    return 0;
}

static int is_dead(const uint32_t *edge, uint32_t parent, uint32_t kind) {
    return edge[PARENT] == parent && edge[KIND] == kind && edge[CHILD] == 0;
}

static int has_dead(const uint32_t *image, uint32_t parent, uint32_t kind) {
    struct area edges = edges_of(image);
    for (uint32_t place = 1; place <= edges.count; place++)
        if (is_dead(image + spot(edges, place), parent, kind)) return 1;
    return 0;
}

static void prune(uint32_t *image, uint32_t parent, uint32_t kind) {
    struct area edges = edges_of(image);
    for (uint32_t place = 1; place <= edges.count; place++) {
        uint32_t *edge = image + spot(edges, place);
        if (is_dead(edge, parent, kind)) memset(edge, 0, EDGE_WORDS * sizeof *edge);
    }
}

/* ---- A child of a shared shape ---- */

int needs_table(const uint32_t *image, uint32_t n, struct step step) {
    if (step.kind == INSERT_STEP) return image[shape_at(image, n) + PROPERTIES] != image[table_of(image, n)] - 1;
    return step.kind == CONFIGURE_STEP;
}

static void make_table(uint32_t *image, uint32_t n, struct step step, uint32_t place) {
    size_t old = table_of(image, n), new = table_at(image, place);
    uint32_t own = image[shape_at(image, n) + PROPERTIES];
    if (step.kind == INSERT_STEP) {
        copy_entries(image, old, new, own);
        return;
    }
    copy_entries(image, old, new, image[old] - 1);
    image[find_key(image, n, step.label) - old + new + ATTRIBUTES] = step.attributes;
}

void make_child(uint32_t *image, uint32_t n, struct step step, struct places at) {
    uint32_t *parent = image + shape_at(image, n);
    uint32_t *child = image + shape_at(image, at.shape);
    uint32_t *edge = image + edge_at(image, at.edge);
    uint32_t table = parent[TABLE];
    if (needs_table(image, n, step)) make_table(image, n, step, table = at.table);
    if (step.kind == INSERT_STEP) append(image, table_at(image, table), step.label, step.attributes);
    child[STATE] = SHARED;
    child[PREVIOUS] = n;
    child[STEP] = step.kind;
    child[TRANSITIONS] = parent[TRANSITIONS] + 1;
    child[PROPERTIES] = parent[PROPERTIES] + (step.kind == INSERT_STEP);
    child[PROTOTYPE] = step.kind == PROTOTYPE_STEP ? step.label : parent[PROTOTYPE];
    child[TABLE] = table;
    edge[PARENT] = n;
    edge[KIND] = edge_kind(step);
    edge[LABEL] = step.label;
    edge[EDGE_ATTRIBUTES] = step.attributes;
    edge[CHILD] = at.shape;
    uint32_t *counter = &parent[COUNTERS + edge_kind(step)];
    *counter = (*counter + 1) % 256;
}

/* A new unique shape with the keys and the prototype of another. */
static void make_unique_copy(uint32_t *image, uint32_t n, uint32_t shape, uint32_t table) {
    const uint32_t *old = image + shape_at(image, n);
    uint32_t *new = image + shape_at(image, shape);
    copy_entries(image, table_of(image, n), table_at(image, table), old[PROPERTIES]);
    new[STATE] = UNIQUE;
    new[PROPERTIES] = old[PROPERTIES];
    new[PROTOTYPE] = old[PROTOTYPE];
    new[TABLE] = table;
}

/* What a step may take: for its child, and for the unique copy of it at the limit. */
struct room {
    struct places child;
    uint32_t unique_shape, unique_table;
};

/* The places that a step takes, found before a word is written; or the lowest refusal that applies. */
static uint32_t find_room(const uint32_t *image, uint32_t n, struct step step, int prunes, struct room *room) {
    const uint32_t *shape = image + shape_at(image, n);
    int copies = needs_table(image, n, step);
    if (step.kind == INSERT_STEP && shape[PROPERTIES] == image[KEY_LIMIT]) return SHAPES_KEYS_FULL;
    room->child.shape = lowest_free(image, shapes_of(image), 1);
    if (room->child.shape == 0) return SHAPES_SHAPES_FULL;
    room->child.table = copies ? lowest_free(image, tables_of(image), 1) : 0;
    if (copies && room->child.table == 0) return SHAPES_TABLES_FULL;
    room->child.edge = lowest_free(image, edges_of(image), 1);
    if (room->child.edge == 0 && !(prunes && has_dead(image, n, edge_kind(step)))) return SHAPES_EDGES_FULL;
    return 0;
}

static uint32_t find_unique_room(const uint32_t *image, struct room *room) {
    room->unique_shape = lowest_free(image, shapes_of(image), room->child.shape + 1);
    if (room->unique_shape == 0) return SHAPES_SHAPES_FULL;
    room->unique_table = lowest_free(image, tables_of(image), room->child.table + 1);
    return room->unique_table == 0 ? SHAPES_TABLES_FULL : 0;
}

/* A dead edge was met, or the counter is about to wrap: the edge takes the lowest place after the prune. */
static void prune_first(uint32_t *image, uint32_t n, uint32_t kind, int dead, struct places *at) {
    prune(image, n, kind);
    if (dead) image[shape_at(image, n) + COUNTERS + kind] = 0;
    at->edge = lowest_free(image, edges_of(image), 1);
}

static struct shapes_reply take_step(uint32_t *image, uint32_t n, struct step step) {
    struct room room = {{0, 0, 0}, 0, 0};
    const uint32_t *shape = image + shape_at(image, n);
    size_t edge = find_edge(image, n, step);
    uint32_t child = edge != 0 ? image[edge + CHILD] : 0;
    int is_new = child == 0, at_limit = shape[TRANSITIONS] + 1 == MOST_TRANSITIONS;
    int prunes = edge != 0 || shape[COUNTERS + edge_kind(step)] == 255;
    uint32_t refusal = is_new ? find_room(image, n, step, prunes, &room) : 0;
    if (refusal == 0 && at_limit) refusal = find_unique_room(image, &room);
    if (refusal != 0) return refused(refusal);
    if (is_new) {
        if (prunes) prune_first(image, n, edge_kind(step), edge != 0, &room.child);
        make_child(image, n, step, room.child);
        child = room.child.shape;
    }
    if (!at_limit) return grant(image, child);
    make_unique_copy(image, child, room.unique_shape, room.unique_table);
    return grant(image, room.unique_shape);
}

/* ---- The calls ---- */

void make_fresh(uint32_t *image, uint32_t state, uint32_t shape, uint32_t table) {
    image[shape_at(image, shape) + STATE] = state;
    image[shape_at(image, shape) + TABLE] = table;
    image[table_at(image, table)] = 1;
}

static struct shapes_reply fresh(uint32_t *image, uint32_t state) {
    uint32_t shape = lowest_free(image, shapes_of(image), 1);
    if (shape == 0) return refused(SHAPES_SHAPES_FULL);
    uint32_t table = lowest_free(image, tables_of(image), 1);
    if (table == 0) return refused(SHAPES_TABLES_FULL);
    make_fresh(image, state, shape, table);
    return grant(image, shape);
}

struct shapes_reply c_root(uint32_t *image) { return fresh(image, SHARED); }

struct shapes_reply c_unique(uint32_t *image) { return fresh(image, UNIQUE); }

static struct shapes_reply insert_unique(uint32_t *image, uint32_t n, uint32_t key, uint32_t attributes) {
    uint32_t *shape = image + shape_at(image, n);
    if (shape[PROPERTIES] == image[KEY_LIMIT]) return refused(SHAPES_KEYS_FULL);
    if (shape[HOLDS] == MOST_HOLDS) return refused(SHAPES_HOLDS_FULL);
    append(image, table_of(image, n), key, attributes);
    shape[PROPERTIES]++;
    return grant(image, n);
}

struct shapes_reply c_insert(uint32_t *image, uint32_t n, uint32_t key, uint32_t attributes) {
    if (!good_key(key)) return refused(SHAPES_BAD_KEY);
    if (attributes > 31) return refused(SHAPES_BAD_ATTRIBUTES);
    if (!is_held(image, n)) return refused(SHAPES_NO_SHAPE);
    if (find_key(image, n, key) != 0) return refused(SHAPES_PRESENT);
    if (image[shape_at(image, n) + STATE] == UNIQUE) return insert_unique(image, n, key, attributes);
    return take_step(image, n, (struct step){INSERT_STEP, key, attributes});
}

struct shapes_reply c_change(uint32_t *image, uint32_t n, uint32_t key, uint32_t attributes) {
    if (!good_key(key)) return refused(SHAPES_BAD_KEY);
    if (attributes > 31) return refused(SHAPES_BAD_ATTRIBUTES);
    if (!is_held(image, n)) return refused(SHAPES_NO_SHAPE);
    size_t entry = find_key(image, n, key);
    if (entry == 0) return refused(SHAPES_ABSENT);
    if (image[shape_at(image, n) + STATE] == SHARED)
        return take_step(image, n, (struct step){CONFIGURE_STEP, key, attributes});
    struct shapes_reply reply = grant(image, n);
    if (reply.refusal == 0) image[entry + ATTRIBUTES] = attributes;
    return reply;
}

struct shapes_reply c_set_prototype(uint32_t *image, uint32_t n, uint32_t to) {
    if (!is_held(image, n)) return refused(SHAPES_NO_SHAPE);
    return take_step(image, n, (struct step){PROTOTYPE_STEP, to, 0});
}

struct shapes_reply c_release(uint32_t *image, uint32_t n) {
    if (!is_held(image, n)) return refused(SHAPES_NO_SHAPE);
    image[shape_at(image, n) + HOLDS]--;
    return refused(0);
}

struct shapes_reply c_lookup(const uint32_t *image, uint32_t n, uint32_t key) {
    if (!good_key(key)) return refused(SHAPES_BAD_KEY);
    if (!is_held(image, n)) return refused(SHAPES_NO_SHAPE);
    size_t entry = find_key(image, n, key);
    if (entry == 0) return refused(0);
    return (struct shapes_reply){0, 1, image[entry + SLOT], image[entry + ATTRIBUTES]};
}

/* ---- The sweep ---- */

/* Marks the held shapes and those before them, each once. */
static void mark_reached(const uint32_t *image, uint8_t *marks) {
    for (uint32_t held = 1; held <= image[SHAPE_COUNT]; held++) {
        if (image[shape_at(image, held) + HOLDS] == 0) continue;
        for (uint32_t n = held; n != 0 && !marks[n]; n = image[shape_at(image, n) + PREVIOUS]) marks[n] = 1;
    }
}

static void sweep_shapes(uint32_t *image, const uint8_t *marks) {
    for (uint32_t n = 1; n <= image[SHAPE_COUNT]; n++)
        if (!marks[n]) memset(image + shape_at(image, n), 0, SHAPE_WORDS * sizeof *image);
}

static void sweep_tables(uint32_t *image) {
    uint8_t users[MOST_PLACES + 1] = {0};
    struct area tables = tables_of(image);
    for (uint32_t n = 1; n <= image[SHAPE_COUNT]; n++) users[image[shape_at(image, n) + TABLE]] = 1;
    for (uint32_t t = 1; t <= tables.count; t++)
        if (!users[t]) memset(image + spot(tables, t), 0, tables.width * sizeof *image);
}

static void sweep_edges(uint32_t *image, const uint8_t *marks) {
    struct area edges = edges_of(image);
    for (uint32_t place = 1; place <= edges.count; place++) {
        uint32_t *edge = image + spot(edges, place);
        if (!marks[edge[PARENT]])
            memset(edge, 0, EDGE_WORDS * sizeof *edge);
        else if (!marks[edge[CHILD]])
            edge[CHILD] = 0;
    }
}

struct shapes_reply c_sweep(uint32_t *image) {
    uint8_t marks[MOST_PLACES + 1] = {0};
    uint32_t shapes = used(image, shapes_of(image)), tables = used(image, tables_of(image));
    mark_reached(image, marks);
    sweep_shapes(image, marks);
    sweep_tables(image);
    sweep_edges(image, marks);
    shapes -= used(image, shapes_of(image));
    tables -= used(image, tables_of(image));
    return (struct shapes_reply){0, shapes, tables, 0};
}
