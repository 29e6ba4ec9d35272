/* What is inside the shapes of an image, read from its words as document 01 lays them out. */
#ifndef INSIDE_H
#define INSIDE_H

#include <stdbool.h>
#include <stdint.h>

/* Where the header's words stand. */
enum {
    HEADER_SHAPES,
    HEADER_TABLES,
    HEADER_KEYS,
    HEADER_EDGES,
    HEADER_SHAPES_AT,
    HEADER_TABLES_AT,
    HEADER_EDGES_AT
};

/* A shape's words. */
enum {
    SHAPE_STATE,
    SHAPE_HOLDS,
    SHAPE_PREVIOUS,
    SHAPE_KIND,
    SHAPE_TRANSITIONS,
    SHAPE_PROPERTIES,
    SHAPE_PROTOTYPE,
    SHAPE_TABLE,
    SHAPE_PROPERTY_COUNTER,
    SHAPE_PROTOTYPE_COUNTER,
    SHAPE_WORDS
};

/* An edge's words. */
enum { EDGE_PARENT, EDGE_KIND, EDGE_KEY, EDGE_ATTRIBUTES, EDGE_CHILD, EDGE_WORDS };

enum { SHARED = 1 };

const uint32_t *shape_words(const uint32_t *image, uint32_t place);

/* How many entries a table has, and their words: key, attributes and slot index of each. */
uint32_t table_length(const uint32_t *image, uint32_t place);
const uint32_t *table_entries(const uint32_t *image, uint32_t place);

/* The words of an edge, the first being 0. */
const uint32_t *edge_words(const uint32_t *image, uint32_t number);

/* Prints the shapes from this one back to its root, at most 16, as the oracle does. */
void print_trail(const uint32_t *image, uint32_t place);

#endif
