/* The clock, the plain pass, and how work is compared with other work. */
#ifndef MEASURE_H
#define MEASURE_H

#include <stddef.h>
#include <stdint.h>

/* Something to measure. What `restore` does comes after each run and is not measured; it may be NULL. */
struct work {
    void (*run)(void *on);
    void (*restore)(void *on);
    void *on;
};

/* How often: at least five repeats, and in each as many runs as take so many seconds, of which the fastest counts. */
struct effort {
    size_t repeats;
    double seconds;
};

struct spread {
    double median, least, most;
};

struct comparison {
    struct spread ratio;
    double base; /* seconds for one run of the work that was compared with */
};

/* How many times as long the work takes as the base, which is measured beside it in each repeat. */
struct comparison compare(struct work work, struct work base, struct effort effort);

/* Reads every word once and adds it up: the loop that the calls are compared with. */
void plain_pass(const uint32_t *words, size_t count);

/* Says what is wrong and ends the program. */
void stop(const char *why, const char *where);

#endif
