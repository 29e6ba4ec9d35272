#include "images.h"

#include <stdlib.h>

#include "measure.h"

static struct image made(struct builder b, struct handles at) { return (struct image){b.name, b.words, b.count, at}; }

static const struct handles no_handles = {0, 0, {0, 0, 0}, {0, 0, 0}, {0, 0, 0}};

void free_image(struct image *image) {
    free(image->words);
    image->words = NULL;
}

struct image make_empty(const char *name, struct limits limits) {
    return made(start_image(&quickly, name, limits), no_handles);
}

/* ---- Keys and steps ---- */

/* One to one on 30 bits: each line can be undone. */
static uint32_t scattered(uint32_t id) {
    const uint32_t mask = ((uint32_t)1 << 30) - 1;
    id ^= id >> 15;
    id = (id * 0x2c1b3c6d) & mask;
    id ^= id >> 13;
    id = (id * 0x297a2d39) & mask;
    return id ^ id >> 15;
}

/* Mostly strings, as in programs. */
static uint32_t key_number(enum numbering numbering, uint32_t number) {
    uint32_t id = numbering == SCATTERED ? scattered(number) : number;
    if (number % 16 == 15) return SHAPES_SYMBOL(id);
    if (number % 32 == 7) return SHAPES_INDEX(id);
    return SHAPES_STRING(id);
}

/* Every fifth key is an accessor. */
static uint32_t attributes_number(uint32_t number) {
    return number % 5 == 4 ? SHAPES_ENUMERABLE | SHAPES_CONFIGURABLE | SHAPES_GET
                           : SHAPES_WRITABLE | SHAPES_ENUMERABLE | SHAPES_CONFIGURABLE;
}

static struct step insert_number(enum numbering numbering, uint32_t number) {
    return (struct step){INSERT_STEP, key_number(numbering, number), attributes_number(number)};
}

/* Of the key with that number, at its width. */
static struct step change_number(enum numbering numbering, uint32_t number) {
    uint32_t attributes = attributes_number(number) ^ SHAPES_ENUMERABLE;
    return (struct step){CONFIGURE_STEP, key_number(numbering, number), attributes};
}

static struct step prototype_number(uint32_t number) { return (struct step){PROTOTYPE_STEP, number, 0}; }

/* ---- Shapes ---- */

/* Inserts in turn, from a new root; each shape stays held. */
static uint32_t add_trunk(struct builder *b, enum numbering numbering, uint32_t depth) {
    uint32_t n = b->maker->fresh(b, SHARED);
    for (uint32_t i = 0; i < depth; i++) n = b->maker->child(b, n, insert_number(numbering, i));
    return n;
}

static uint32_t previous_of(const struct builder *b, uint32_t n) { return b->words[shape_at(b->words, n) + PREVIOUS]; }

/* Releases all shapes of the trunk but its last two. */
static void release_trunk(struct builder *b, uint32_t tip) {
    uint32_t n = previous_of(b, previous_of(b, tip));
    for (; n != 0; n = previous_of(b, n)) b->maker->release(b, n);
}

/* As many keys as a table takes. */
static void add_unique(struct builder *b, const uint32_t *keys) {
    uint32_t n = b->maker->fresh(b, UNIQUE);
    for (uint32_t i = 0; i < b->words[KEY_LIMIT]; i++) b->maker->insert(b, n, keys[i], attributes_number(i));
}

static void add_uniques(struct builder *b, uint32_t count, const uint32_t *keys) {
    for (uint32_t i = 0; i < count; i++) add_unique(b, keys);
}

enum { MOST_KEYS = 2048 };

static void add_numbered_uniques(struct builder *b, enum numbering numbering, uint32_t count) {
    uint32_t keys[MOST_KEYS];
    for (uint32_t i = 0; i < MOST_KEYS; i++) keys[i] = key_number(numbering, i);
    add_uniques(b, count, keys);
}

/* ---- Full images ---- */

/* How the room is shared out. Three of four tables belong to unique shapes, which alone may fill 2,048 keys. The
 * shared shapes are trunks of inserts, about half of them; then a shape for each table that is left; and prototype
 * steps. A trunk ends before the limit of transitions, so that steps can follow. */
struct parts {
    uint32_t uniques, trunks, depth, copies, prototypes, dead;
};

enum { DEEPEST_TRUNK = 1000, PROTOTYPES_IN_TURN = 16 };

static struct parts share_out(struct limits l) {
    struct parts p;
    p.uniques = l.T / 4 * 3;
    uint32_t shared = l.S - p.uniques, tables = l.T - p.uniques;
    p.depth = l.K < DEEPEST_TRUNK ? l.K : DEEPEST_TRUNK;
    p.trunks = shared / 2 / (p.depth + 1);
    if (p.trunks > tables / 2) p.trunks = tables / 2;
    if (p.trunks == 0) p.trunks = 1;
    p.copies = tables - p.trunks;
    p.prototypes = shared - p.trunks * (p.depth + 1) - p.copies;
    p.dead = l.E - (shared - p.trunks);
    return p;
}

/* Children that are released and swept leave dead edges. They start at all shapes of the trunks but the tips, where an
 * insert would append to the table. While there are free tables, every other one is an insert, which copies. */
static void add_swept(struct builder *b, struct parts p, enum numbering numbering, const uint32_t *tips) {
    uint32_t free_tables = p.copies + p.uniques;
    for (uint32_t i = 0; i < p.dead; i++) {
        /* The shapes of a trunk are numbered in turn. */
        uint32_t parent = tips[i % p.trunks] - 1 - i / p.trunks % p.depth;
        int inserts = i % 2 == 0 && i / 2 < free_tables;
        struct step step = inserts ? insert_number(numbering, p.depth + i) : prototype_number(i);
        b->maker->release(b, b->maker->child(b, parent, step));
    }
    b->maker->sweep(b);
}

/* A table for each: copied whole for a change of the tip's key, or up to the last key for another in its stead. */
static uint32_t add_copy(struct builder *b, struct parts p, enum numbering numbering, const uint32_t *tips,
                         uint32_t i) {
    uint32_t tip = tips[i / 2 % p.trunks], number = i / 2 / p.trunks;
    if (i % 2 == 0) return b->maker->child(b, tip, change_number(numbering, number));
    return b->maker->child(b, previous_of(b, tip), insert_number(numbering, p.depth + p.dead + number));
}

/* Steps from the tips and the copies in turn, which share their tables. */
static void add_prototypes(struct builder *b, struct parts p, const uint32_t *leaves) {
    uint32_t n = 0;
    for (uint32_t i = 0; i < p.prototypes; i++) {
        uint32_t chain = i / PROTOTYPES_IN_TURN;
        int is_first = i % PROTOTYPES_IN_TURN == 0;
        uint32_t from = is_first ? leaves[chain % (p.trunks + p.copies)] : n;
        n = b->maker->child(b, from, prototype_number(p.dead + i));
        if (!is_first) b->maker->release(b, from);
    }
}

static int has_free_place(const uint32_t *words) {
    return lowest_free(words, shapes_of(words), 1) != 0 || lowest_free(words, tables_of(words), 1) != 0 ||
           lowest_free(words, edges_of(words), 1) != 0;
}

struct image make_full(const struct maker *maker, const char *name, struct limits limits, enum numbering numbering) {
    struct builder b = start_image(maker, name, limits);
    struct parts p = share_out(limits);
    /* The tips, then the copies. */
    uint32_t *leaves = malloc((p.trunks + p.copies) * sizeof *leaves);
    if (leaves == NULL) stop("no memory", name);
    for (uint32_t i = 0; i < p.trunks; i++) leaves[i] = add_trunk(&b, numbering, p.depth);
    add_swept(&b, p, numbering, leaves);
    for (uint32_t i = 0; i < p.trunks; i++) release_trunk(&b, leaves[i]);
    for (uint32_t i = 0; i < p.copies; i++) leaves[p.trunks + i] = add_copy(&b, p, numbering, leaves, i);
    add_prototypes(&b, p, leaves);
    add_numbered_uniques(&b, numbering, p.uniques);
    if (has_free_place(b.words)) stop("is not full", name);
    struct handles at = {previous_of(&b, leaves[0]), leaves[0], insert_number(numbering, p.depth - 1),
                         change_number(numbering, 0), prototype_number(p.dead)};
    free(leaves);
    return made(b, at);
}

/* ---- Images for the inner calls ---- */

struct image make_half_full(const char *name, struct limits limits) {
    struct builder b = start_image(&quickly, name, limits);
    uint32_t depth = limits.K / 2, trunks = limits.S / 2 / (depth + 1);
    for (uint32_t i = 0; i < trunks; i++) release_trunk(&b, add_trunk(&b, SCATTERED, depth));
    return made(b, no_handles);
}

struct image make_unique(const char *name, uint32_t keys) {
    struct builder b = start_image(&quickly, name, (struct limits){1, 1, keys, 1});
    add_numbered_uniques(&b, SCATTERED, 1);
    return made(b, no_handles);
}

/* ---- Images that are bad for the test ---- */

struct image make_one_parent(const char *name, uint32_t edges, int agree) {
    struct builder b = start_image(&quickly, name, (struct limits){2, 1, 1, edges});
    uint32_t parent = add_trunk(&b, IN_TURN, 1);
    for (uint32_t i = 0; i + 1 < edges; i++) {
        if (i % 2 == 0)
            add_dead_edge(&b, parent, PROTOTYPE_EDGE, i, 0);
        else
            add_dead_edge(&b, parent, PROPERTY_EDGE, key_number(IN_TURN, 1 + i / 64), i / 2 % 32);
    }
    uint32_t *last = b.words + edge_at(b.words, edges);
    if (agree)
        for (int i = 0; i < EDGE_WORDS; i++) last[i] = last[i - EDGE_WORDS];
    return made(b, no_handles);
}

struct image make_last_bits(const char *name, uint32_t tables) {
    struct builder b = start_image(&quickly, name, (struct limits){tables, tables, MOST_KEYS, 1});
    uint32_t keys[MOST_KEYS];
    for (uint32_t i = 0; i < MOST_KEYS; i++) keys[i] = SHAPES_STRING(0x2aaaa800 + i);
    add_uniques(&b, tables, keys);
    return made(b, no_handles);
}

/* The changes start at the trunk's tip and go on at each change in turn: 32 from each, one for each of its four keys
 * and of eight attributes of one width. */
struct image make_own_tables(const char *name, uint32_t shapes) {
    enum { KEYS = 4, CHANGES = 32 };
    uint32_t uniques = shapes / 2, changes = shapes - uniques - KEYS - 1;
    struct builder b = start_image(&quickly, name, (struct limits){shapes, shapes - KEYS, KEYS, KEYS + changes});
    uint32_t tip = add_trunk(&b, IN_TURN, KEYS);
    for (uint32_t i = 0; i < changes; i++) {
        struct step change = {CONFIGURE_STEP, key_number(IN_TURN, i % KEYS), i / KEYS % 8};
        b.maker->child(&b, tip + i / CHANGES, change);
    }
    add_numbered_uniques(&b, IN_TURN, uniques);
    return made(b, no_handles);
}

/* Keys whose products with the constant are numbers in turn: their high bits are the same. */
struct image make_hashed_alike(const char *name, uint32_t tables) {
    struct builder b = start_image(&quickly, name, (struct limits){tables, tables, MOST_KEYS, 1});
    const uint32_t constant = 1640531527;
    uint32_t keys[MOST_KEYS], filled = 0, inverse = constant;
    /* Newton's steps double the bits that are right, from three on. */
    for (int i = 0; i < 4; i++) inverse *= 2 - constant * inverse;
    for (uint32_t product = 0; filled < MOST_KEYS; product++)
        if (inverse * product >> 30 != 3) keys[filled++] = inverse * product;
    add_uniques(&b, tables, keys);
    return made(b, no_handles);
}

/* Eight edges for each key of the shape, at its width; the others for keys that it lacks. */
struct image make_dead_edges(const char *name, uint32_t edges) {
    enum { KEYS = 1000, WIDTHS = 8 };
    struct builder b = start_image(&quickly, name, (struct limits){KEYS + 1, 1, KEYS, edges});
    uint32_t tip = add_trunk(&b, SCATTERED, KEYS);
    for (uint32_t i = 0; i + KEYS < edges; i++) {
        uint32_t number = i < WIDTHS * KEYS ? i / WIDTHS : i;
        uint32_t wide = width_of(attributes_number(number)) == 2 ? SHAPES_GET : 0;
        add_dead_edge(&b, tip, PROPERTY_EDGE, key_number(SCATTERED, number), wide | i % WIDTHS);
    }
    return made(b, no_handles);
}
