/* The public calls, each of which tests the whole image, against a plain pass over the same words. */
#ifndef PUBLIC_H
#define PUBLIC_H

#include "images.h"
#include "measure.h"

/* Every public call, with a target for the soundness test alone. Frees the image. */
void measure_calls(struct image image, double target, struct effort effort);

/* The soundness test alone. */
void measure_test(struct image image, int is_sound, double target, struct effort effort);

/* How the test's time grows from one image to the next, and that of the plain pass. */
void measure_growth(struct image small, struct image large, struct effort effort);

#endif
