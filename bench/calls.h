/* Document 01's rules in C, over the same image and with the same scans as the library: what its inner calls are
 * measured against, and what the images are made by. Each call takes a sound image, and tests nothing else of it. */
#ifndef CALLS_H
#define CALLS_H

#include "layout.h"
#include "shapes.h"

enum { INSERT_STEP, CONFIGURE_STEP, PROTOTYPE_STEP };

struct step {
    uint32_t kind, label, attributes;
};

/* Places for a new child: its own, its edge's, and its table's if it needs one. */
struct places {
    uint32_t shape, table, edge;
};

struct shapes_reply c_root(uint32_t *image);
struct shapes_reply c_unique(uint32_t *image);
struct shapes_reply c_insert(uint32_t *image, uint32_t shape, uint32_t key, uint32_t attributes);
/* At equal width only. */
struct shapes_reply c_change(uint32_t *image, uint32_t shape, uint32_t key, uint32_t attributes);
/* Of a shared shape only. */
struct shapes_reply c_set_prototype(uint32_t *image, uint32_t shape, uint32_t to);
struct shapes_reply c_release(uint32_t *image, uint32_t shape);
struct shapes_reply c_sweep(uint32_t *image);
struct shapes_reply c_lookup(const uint32_t *image, uint32_t shape, uint32_t key);

/* Their parts, for the making of images. */

/* The lowest free place that is not below `from`; 0 if there is none. */
uint32_t lowest_free(const uint32_t *image, struct area area, uint32_t from);

int needs_table(const uint32_t *image, uint32_t shape, struct step step);

/* The child that a new step makes, at these places. */
void make_child(uint32_t *image, uint32_t shape, struct step step, struct places at);

/* A shape without keys, shared or unique. */
void make_fresh(uint32_t *image, uint32_t state, uint32_t shape, uint32_t table);

void append(uint32_t *image, size_t table, uint32_t key, uint32_t attributes);

#endif
