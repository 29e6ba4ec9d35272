/* Two ways to make the shapes of an image: by the library's calls; and quickly, where it is known beforehand that a
 * step is new and a key absent, so that the largest images take no longer than they must. check.c holds the second to
 * the first. */
#ifndef MAKERS_H
#define MAKERS_H

#include "calls.h"

struct limits {
    uint32_t S, T, K, E;
};

/* An image while it is made. */
struct builder {
    const struct maker *maker;
    const char *name;
    uint32_t *words;
    size_t count;
    struct places next; /* no place below is free: the quick maker finds each free place at once */
};

/* Each gives a shape one hold, as the calls do. */
struct maker {
    uint32_t (*fresh)(struct builder *, uint32_t state);
    uint32_t (*child)(struct builder *, uint32_t parent, struct step);
    void (*insert)(struct builder *, uint32_t unique, uint32_t key, uint32_t attributes);
    void (*release)(struct builder *, uint32_t shape);
    void (*sweep)(struct builder *);
};

extern const struct maker by_calls, quickly;

/* A formatted image. */
struct builder start_image(const struct maker *maker, const char *name, struct limits limits);

/* The edge at the lowest free place, dead. */
void add_dead_edge(struct builder *b, uint32_t parent, uint32_t kind, uint32_t label, uint32_t attributes);

#endif
