/* A port of the shapes, as the driver of handle lines (handles.c) reaches it. There are two: step_runner.c speaks to a
   step runner over pipes, and c_calls.c calls the archive. */
#ifndef PORT_H
#define PORT_H

#include <stdbool.h>
#include <stddef.h>
#include <stdint.h>

enum { MOST_NUMBERS = 3, LONGEST_LINE = 64, BAD_LINE = 14 };

/* A line in document 01's form. The first number is a shape number, which has taken the place of the handle. */
struct line {
    char letter;
    uint32_t numbers[MOST_NUMBERS];
    /* What stands in the text: how many digits the first number has, and all that comes after them. */
    int digits;
    const char *rest;
};

/* The four numbers of document 01's step runner. */
struct answer {
    uint32_t refusal, first, second, third;
};

void port_start(char **arguments);

/* Asks for some lines, and waits for their answers. */
void port_ask(const struct line *lines, size_t count, struct answer *answers);

/* Asks for a line of any other form, as it is; its line feed may be missing. */
struct answer port_ask_bad(const char *text, size_t length);

/* Takes an image from a line `L`, and gives each handle that it has: the shape number, and whether the shape stays held
   when all its handles are released. A port that has no images says so. */
void port_load(const char *text, void (*give)(uint32_t place, bool pinned));

/* Prints what the port can say of a shape, as the oracle says it. The answer is the one that gave the handle; none if
   the shape is only shown. */
void port_show(uint32_t handle, uint32_t place, uint32_t same, const struct answer *answer);

/* Another run begins: every hold was released, and a sweep made. */
void port_new_run(void);

void port_finish(void);

#endif
