/* See stddef.h. */
#ifndef KIT_STDLIB_H
#define KIT_STDLIB_H

#include <stddef.h>

void *malloc(size_t size);
void free(void *room);
void qsort(void *base, size_t count, size_t size, int (*compare)(const void *a, const void *b));
void exit(int status);

#endif
