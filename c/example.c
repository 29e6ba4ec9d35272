/* The shortest use of shapes from C: an object with two properties, and where the second is stored. */
#include <stdio.h>

#include "shapes.h"

enum { SHAPES = 64, TABLES = 16, KEYS = 8, EDGES = 64, WORDS = SHAPES_WORDS(SHAPES, TABLES, KEYS, EDGES) };

static uint32_t image[WORDS];

int main(void) {
    const uint32_t x = SHAPES_STRING(1), y = SHAPES_STRING(2);
    const uint32_t data = SHAPES_WRITABLE | SHAPES_ENUMERABLE | SHAPES_CONFIGURABLE;

    struct shapes_reply formatted = shapes_format(image, WORDS, SHAPES, TABLES, KEYS, EDGES);
    if (formatted.refusal != 0) {
        fprintf(stderr, "refusal %u\n", (unsigned)formatted.refusal);
        return 1;
    }
    struct shapes_reply root = shapes_root(image, WORDS);
    struct shapes_reply with_x = shapes_insert(image, WORDS, root.first, x, data);
    struct shapes_reply with_both = shapes_insert(image, WORDS, with_x.first, y, data);

    /* A refused call gives shape 0, and a call on shape 0 is refused, so one test at the end is enough. */
    struct shapes_reply slot = shapes_lookup(image, WORDS, with_both.first, y);
    if (slot.refusal != 0 || slot.first == 0) {
        fprintf(stderr, "refusal %u\n", (unsigned)slot.refusal);
        return 1;
    }
    printf("shape %u: y is at slot %u with attributes %u\n", (unsigned)with_both.first, (unsigned)slot.second,
           (unsigned)slot.third);
    return 0;
}
