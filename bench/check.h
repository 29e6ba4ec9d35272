/* Whether the comparison is an honest one. Each ends the program if not. */
#ifndef CHECK_H
#define CHECK_H

/* calls.c does what the library does: every answer and every word, on small images. */
void check_calls(void);

/* The runner's image, full, is the one that the library's calls make. */
void check_images(void);

#endif
