/* Images to measure on. Each is sound, but where it says that it is not. */
#ifndef IMAGES_H
#define IMAGES_H

#include "makers.h"

/* Steps along live edges, so that a full image can take them: `before` with the key inserted is `tip`, which has a
 * child by the change and one by the prototype. All are 0 in an image without shapes. */
struct handles {
    uint32_t before, tip;
    struct step insert, change, prototype;
};

struct image {
    const char *name;
    uint32_t *words;
    size_t count;
    struct handles at;
};

/* How keys are numbered: in turn, or scattered over 30 bits. */
enum numbering { IN_TURN, SCATTERED };

struct image make_empty(const char *name, struct limits limits);

/* All shapes, tables and edges in use, by steps that calls can take; tables as full as they can be. */
struct image make_full(const struct maker *maker, const char *name, struct limits limits, enum numbering numbering);

/* For the inner calls: chains of inserts that take half of the shapes, the edges and the keys. The last two shapes of
 * each are held. */
struct image make_half_full(const char *name, struct limits limits);

/* One unique shape with so many keys. */
struct image make_unique(const char *name, uint32_t keys);

/* ---- Bad for the test ---- */

/* All edges but one start at one shape, which has one key: half of them for prototypes, half for keys, of which 32 at
 * a time differ in their attributes alone. If `agree`, the last two edges do, which is not sound. */
struct image make_one_parent(const char *name, uint32_t edges, int agree);

/* Unique shapes with 2,048 keys each, which differ in their last eleven bits. */
struct image make_last_bits(const char *name, uint32_t tables);

/* Unique shapes, and as many shared ones that are copies for a change: all but five have a table of their own. */
struct image make_own_tables(const char *name, uint32_t shapes);

/* Unique shapes with 2,048 keys each, which a multiplicative hash puts in one place. */
struct image make_hashed_alike(const char *name, uint32_t tables);

/* Dead edges of one shape with 1,000 keys, each of which asks whether the shape has its key. */
struct image make_dead_edges(const char *name, uint32_t edges);

void free_image(struct image *image);

#endif
