#define _POSIX_C_SOURCE 199309L
#include "measure.h"

#include <stdio.h>
#include <stdlib.h>
#include <time.h>

enum { MOST_REPEATS = 15, LEAST_REPEATS = 5, LEAST_RUNS = 5 };

/* After so many seconds of it, work is repeated no more often than it must be. */
static const double LONG_ENOUGH = 0.1;

static double now(void) {
    struct timespec t;
    clock_gettime(CLOCK_MONOTONIC, &t);
    return (double)t.tv_sec + 1e-9 * (double)t.tv_nsec;
}

static volatile uint32_t sink;

/* The sum goes to a volatile word, so that the loop is not left out. It takes one word at a time: gcc -O2 does that by
 * itself, and clang is told to, so that both machines are held to the same pass. */
void plain_pass(const uint32_t *words, size_t count) {
    uint32_t sum = 0;
#ifdef __clang__
#pragma clang loop vectorize(disable) interleave(disable) unroll(disable)
#endif
    for (size_t i = 0; i < count; i++) sum += words[i];
    sink = sum;
}

/* Seconds for one run: the fastest of several, since other programs on the machine only ever make a run slower. Each is
 * measured alone, as the words are restored in between. */
static double time_of(struct work work, double enough) {
    double total = 0, fastest = 0;
    for (int runs = 0; total < enough || (runs < LEAST_RUNS && total < LONG_ENOUGH); runs++) {
        double start = now();
        work.run(work.on);
        double took = now() - start;
        if (work.restore != NULL) work.restore(work.on);
        if (runs == 0 || took < fastest) fastest = took;
        total += took;
    }
    return fastest;
}

static int by_size(const void *a, const void *b) {
    double x = *(const double *)a, y = *(const double *)b;
    return (x > y) - (x < y);
}

static struct spread spread_of(double *values, size_t count) {
    qsort(values, count, sizeof *values, by_size);
    double middle = (values[(count - 1) / 2] + values[count / 2]) / 2;
    return (struct spread){middle, values[0], values[count - 1]};
}

struct comparison compare(struct work work, struct work base, struct effort effort) {
    double ratios[MOST_REPEATS], bases[MOST_REPEATS];
    size_t repeats = effort.repeats < MOST_REPEATS ? effort.repeats : MOST_REPEATS;
    for (size_t i = 0; i < repeats; i++) {
        bases[i] = time_of(base, effort.seconds);
        double took = time_of(work, effort.seconds);
        ratios[i] = took / bases[i];
        if (took > LONG_ENOUGH) repeats = LEAST_REPEATS;
    }
    return (struct comparison){spread_of(ratios, repeats), spread_of(bases, repeats).median};
}

void stop(const char *why, const char *where) {
    fflush(stdout);
    fprintf(stderr, "bench: %s: %s\n", where, why);
    exit(1);
}
