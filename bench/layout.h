/* Where the words of an image lie: document 01, "The image". */
#ifndef LAYOUT_H
#define LAYOUT_H

#include <stddef.h>
#include <stdint.h>

enum { SHAPE_COUNT, TABLE_COUNT, KEY_LIMIT, EDGE_COUNT, SHAPES_AT, TABLES_AT, EDGES_AT, TOTAL };

enum {
    STATE,
    HOLDS,
    PREVIOUS,
    STEP,
    TRANSITIONS,
    PROPERTIES,
    PROTOTYPE,
    TABLE,
    COUNTERS, /* of property edges, then of prototype edges */
    SHAPE_WORDS = 10
};
enum { SHARED = 1, UNIQUE = 2 };

enum { KEY, ATTRIBUTES, SLOT, ENTRY_WORDS };

enum { PARENT, KIND, LABEL, EDGE_ATTRIBUTES, CHILD, EDGE_WORDS };
enum { PROPERTY_EDGE, PROTOTYPE_EDGE };

/* Records of one width that follow each other; places are numbered from 1. */
struct area {
    size_t start, width;
    uint32_t count;
};

static inline struct area shapes_of(const uint32_t *image) {
    return (struct area){image[SHAPES_AT], SHAPE_WORDS, image[SHAPE_COUNT]};
}

static inline struct area tables_of(const uint32_t *image) {
    return (struct area){image[TABLES_AT], 1 + ENTRY_WORDS * (size_t)image[KEY_LIMIT], image[TABLE_COUNT]};
}

static inline struct area edges_of(const uint32_t *image) {
    return (struct area){image[EDGES_AT], EDGE_WORDS, image[EDGE_COUNT]};
}

static inline size_t spot(struct area area, uint32_t place) { return area.start + area.width * (place - 1); }

static inline size_t shape_at(const uint32_t *image, uint32_t n) { return spot(shapes_of(image), n); }

static inline size_t table_at(const uint32_t *image, uint32_t t) { return spot(tables_of(image), t); }

static inline size_t edge_at(const uint32_t *image, uint32_t e) { return spot(edges_of(image), e); }

/* The table of a shape: its count word, which its entries follow. */
static inline size_t table_of(const uint32_t *image, uint32_t n) {
    return table_at(image, image[shape_at(image, n) + TABLE]);
}

static inline size_t entry_in(size_t table, uint32_t position) { return table + 1 + ENTRY_WORDS * (size_t)position; }

static inline uint32_t width_of(uint32_t attributes) { return (attributes & 24) != 0 ? 2 : 1; }

#endif
