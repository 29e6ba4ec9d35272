/* The inner calls, which require a sound image, against the same rules in C. */
#ifndef INNER_H
#define INNER_H

#include "images.h"
#include "measure.h"

/* Insert along a live edge, and sweep. Frees the image. */
void measure_inner_on_full(struct image image, struct effort effort);

/* Insert that makes a child. Frees the image. */
void measure_inner_on_half_full(struct image image, struct effort effort);

/* Lookup of every key of the image's one shape. Frees the image. */
void measure_inner_lookup(struct image image, struct effort effort);

#endif
