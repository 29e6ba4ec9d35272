/* The calls of the crate inner_c: they test no image, and may be given a sound one only. */
#ifndef INNER_C_H
#define INNER_C_H

#include "shapes.h"

struct shapes_reply inner_insert(uint32_t *image, size_t words, uint32_t shape, uint32_t key, uint32_t attributes);
struct shapes_reply inner_lookup(const uint32_t *image, size_t words, uint32_t shape, uint32_t key);
struct shapes_reply inner_sweep(uint32_t *image, size_t words);

#endif
