/* Draws an image, record by record, after the calls of lesson 1; then changes one word at a time and tells whether
 * the image is still sound. */
#include <stdio.h>

#include "shapes.h"

enum { SHAPES = 5, TABLES = 2, KEYS = 4, EDGES = 4, WORDS = SHAPES_WORDS(SHAPES, TABLES, KEYS, EDGES) };

static uint32_t image[WORDS];

static void draw_words(size_t at, size_t width) {
    size_t i;
    printf(" at %2u:", (unsigned)at);
    for (i = 0; i < width; i++) printf(" %u", (unsigned)image[at + i]);
    printf("\n");
}

static void draw_area(const char *name, size_t start, size_t width, unsigned places) {
    unsigned place;
    for (place = 1; place <= places; place++) {
        printf("%s %u", name, place);
        draw_words(start + (place - 1) * width, width);
    }
}

static void change(size_t at, uint32_t value) {
    uint32_t old = image[at];
    image[at] = value;
    printf("word %u from %u to %u: refusal %u\n", (unsigned)at, (unsigned)old, (unsigned)value,
           (unsigned)shapes_is_sound(image, WORDS).refusal);
    image[at] = old;
}

int main(void) {
    uint32_t shape;
    shapes_format(image, WORDS, SHAPES, TABLES, KEYS, EDGES);
    shape = shapes_root(image, WORDS).first;
    shape = shapes_insert(image, WORDS, shape, SHAPES_STRING(1), 7).first;
    shape = shapes_insert(image, WORDS, shape, SHAPES_STRING(2), 14).first;
    shapes_insert(image, WORDS, shape, SHAPES_STRING(3), 7);

    printf("header ");
    draw_words(0, 8);
    draw_area("shape", image[4], 10, SHAPES);
    draw_area("table", image[5], 1 + 3 * KEYS, TABLES);
    draw_area("edge", image[6], 5, EDGES);

    change(0, 4);
    change(67, 2);
    change(65, 1);
    change(53, 7);
    change(19, 65536);
    change(42, 5);
    change(88, 3);
    change(16, 200);
    return 0;
}
