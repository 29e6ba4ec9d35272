/* The refusals that no short step file meets: 1, 11, 12 and 13. */
#include <stdio.h>

#include "shapes.h"

enum { WORDS = SHAPES_WORDS(2, 1, 1, 1) };

static uint32_t image[WORDS];

static void tell(const char *what, struct shapes_reply r) { printf("%s: %u\n", what, (unsigned)r.refusal); }

static uint32_t root_of_new_image(void) {
    shapes_format(image, WORDS, 2, 1, 1, 1);
    return shapes_root(image, WORDS).first;
}

/* Word 8 is the state of shape 1; there is no state 3. */
static void damaged(void) {
    uint32_t root = root_of_new_image();
    image[8] = 3;
    tell("a lookup in a damaged image", shapes_lookup(image, WORDS, root, SHAPES_STRING(1)));
}

static void holds_full(void) {
    uint32_t root = root_of_new_image(), holds;
    for (holds = 2; holds <= 65535; holds++) shapes_hold(image, WORDS, root);
    tell("hold 65,536 of a shape", shapes_hold(image, WORDS, root));
    shapes_release(image, WORDS, root);
    tell("the same after a release", shapes_hold(image, WORDS, root));
}

static void bad_size(void) {
    tell("formatting one word less", shapes_format(image, WORDS - 1, 2, 1, 1, 1));
    tell("formatting no edges", shapes_format(image, SHAPES_WORDS(2, 1, 1, 0), 2, 1, 1, 0));
}

static void out_short(void) {
    uint32_t root = root_of_new_image(), list[1];
    uint32_t shape = shapes_insert(image, WORDS, root, SHAPES_STRING(1), 7).first;
    tell("a list of one key into no word", shapes_keys(image, WORDS, shape, list, 0));
    tell("the same into one word", shapes_keys(image, WORDS, shape, list, 1));
}

int main(void) {
    damaged();
    holds_full();
    bad_size();
    out_short();
    return 0;
}
