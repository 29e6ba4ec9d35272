/* The printed table. */
#ifndef TABLE_H
#define TABLE_H

#include "measure.h"

/* `base` says what the times are compared with. */
void print_title(const char *title, const char *base);

/* A target of 0 is none. `runs` is how many calls the measured work makes. */
void print_row(const char *image, size_t words, const char *call, struct comparison c, size_t runs, double target);

#endif
