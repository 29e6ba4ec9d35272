/* Answers the lines of a step file on standard input as the step runner does, though it takes more lines for good, and
 * tells after each answer what the shape has: its keys in the order of the key list, with attributes and slot index. */
#include <stdio.h>

#include "shapes.h"

enum { SHAPES = 256, TABLES = 32, KEYS = 32, EDGES = 256, WORDS = SHAPES_WORDS(SHAPES, TABLES, KEYS, EDGES) };

static uint32_t image[WORDS];

static struct shapes_reply answer(const char *line) {
    const struct shapes_reply bad_line = {14, 0, 0, 0};
    unsigned shape = 0, second = 0, attributes = 0;
    char letter = 0;
    int numbers = sscanf(line, "%c %u %u %u", &letter, &shape, &second, &attributes) - 1;
    switch (letter) {
        case 'R': return numbers == 0 ? shapes_root(image, WORDS) : bad_line;
        case 'U': return numbers == 0 ? shapes_unique(image, WORDS) : bad_line;
        case 'I': return numbers == 3 ? shapes_insert(image, WORDS, shape, second, attributes) : bad_line;
        case 'C': return numbers == 3 ? shapes_change(image, WORDS, shape, second, attributes) : bad_line;
        case 'D': return numbers == 2 ? shapes_remove(image, WORDS, shape, second) : bad_line;
        case 'P': return numbers == 2 ? shapes_set_prototype(image, WORDS, shape, second) : bad_line;
        case 'F': return numbers == 1 ? shapes_release(image, WORDS, shape) : bad_line;
        case 'S': return numbers == 0 ? shapes_sweep(image, WORDS) : bad_line;
        default: return bad_line;
    }
}

static void tell_contents(uint32_t shape) {
    uint32_t keys[KEYS], i;
    uint32_t count = shapes_keys(image, WORDS, shape, keys, KEYS).first;
    printf(": %s", shapes_is_shared(image, WORDS, shape).first == 1 ? "shared" : "unique");
    printf(", prototype %u", (unsigned)shapes_prototype(image, WORDS, shape).first);
    for (i = 0; i < count; i++) {
        struct shapes_reply slot = shapes_lookup(image, WORDS, shape, keys[i]);
        printf(", key %u (%u) at %u", (unsigned)keys[i], (unsigned)slot.third, (unsigned)slot.second);
    }
}

int main(void) {
    char line[80];
    shapes_format(image, WORDS, SHAPES, TABLES, KEYS, EDGES);
    while (fgets(line, sizeof line, stdin)) {
        struct shapes_reply r = answer(line);
        printf("%u %u %u %u", (unsigned)r.refusal, (unsigned)r.first, (unsigned)r.second, (unsigned)r.third);
        if (r.first != 0 && line[0] != 'S') tell_contents(r.first);
        printf("\n");
    }
    return 0;
}
