/* bench [--quick] [calls] [bad] [growth] [inner]: see docs/SPEED.md. */
#include <stdio.h>
#include <string.h>

#include "check.h"
#include "inner.h"
#include "public.h"
#include "table.h"

static const struct limits runner = {256, 32, 32, 256}, middle = {2000, 400, 64, 2000},
                           largest = {65535, 2500, 2048, 65535};

/* "on full images made by calls above 4,000 words", "for the bad ones and for the runner's image full" */
static const double target_full = 4, target_bad = 10, no_target = 0;

static struct image full(const char *name, struct limits limits, enum numbering numbering) {
    return make_full(&quickly, name, limits, numbering);
}

static void measure_public(int quick, struct effort effort) {
    print_title("Public calls, each with its test of the whole image", "plain pass");
    measure_calls(make_empty("runner's, empty", runner), no_target, effort);
    measure_calls(full("runner's, full", runner, IN_TURN), target_bad, effort);
    measure_test(full("runner's, full, keys scattered", runner, SCATTERED), 1, target_bad, effort);
    measure_calls(full("2,000 shapes, full", middle, IN_TURN), target_full, effort);
    measure_test(full("2,000 shapes, full, keys scattered", middle, SCATTERED), 1, target_full, effort);
    if (quick) return;
    measure_calls(full("largest, full", largest, IN_TURN), target_full, effort);
    measure_test(full("largest, full, keys scattered", largest, SCATTERED), 1, target_full, effort);
}

static void measure_bad(int quick, struct effort effort) {
    uint32_t many = quick ? 4096 : 65535, tables = quick ? 16 : 2500;
    print_title("The test on images that are bad for it", "plain pass");
    measure_test(make_one_parent("edges of one shape", many, 0), 1, target_bad, effort);
    measure_test(make_one_parent("edges of one shape, last two agree", many, 1), 0, target_bad, effort);
    measure_test(make_last_bits("2,048 keys, last bits differ", tables), 1, target_bad, effort);
    measure_test(make_own_tables("a table for each shape", many), 1, target_bad, effort);
    measure_test(make_hashed_alike("2,048 keys that hash alike", tables), 1, no_target, effort);
    measure_test(make_dead_edges("dead edges of a shape of 1,000 keys", many), 1, no_target, effort);
}

/* Twice the records each time, and then twice the keys in each table. */
static void measure_doubling(int quick, struct effort effort) {
    uint32_t most = quick ? 2000 : 32000, most_keys = quick ? 256 : 2048;
    print_title("Growth from an image of half the size", "at half size");
    for (uint32_t n = quick ? 250 : 1000; n < most; n *= 2) {
        struct limits half = {n, n / 5, 64, n}, whole = {2 * n, 2 * n / 5, 64, 2 * n};
        measure_growth(full("half", half, SCATTERED), full("shapes, tables, edges doubled", whole, SCATTERED), effort);
    }
    for (uint32_t k = quick ? 64 : 256; k < most_keys; k *= 2) {
        struct limits half = {4000, 400, k, 4000}, whole = {4000, 400, 2 * k, 4000};
        measure_growth(full("half", half, SCATTERED), full("keys doubled", whole, SCATTERED), effort);
    }
}

static void measure_inner(int quick, struct effort effort) {
    (void)quick;
    print_title("Inner calls, which require a sound image", "in C");
    measure_inner_on_full(full("runner's, full", runner, SCATTERED), effort);
    measure_inner_on_full(full("2,000 shapes, full", middle, SCATTERED), effort);
    measure_inner_on_half_full(make_half_full("runner's, half full", runner), effort);
    measure_inner_on_half_full(make_half_full("2,000 shapes, half full", middle), effort);
    measure_inner_lookup(make_unique("12 keys", 12), effort);
    measure_inner_lookup(make_unique("1,000 keys", 1000), effort);
}

static const struct {
    const char *name;
    void (*measure)(int quick, struct effort effort);
} parts[] = {{"calls", measure_public}, {"bad", measure_bad}, {"growth", measure_doubling}, {"inner", measure_inner}};

enum { PARTS = sizeof parts / sizeof *parts };

/* Marks the parts that are asked for; all, if none is. Answers 0 if a word is none of them. */
static int read_words(int count, char **words, int *quick, int *asked) {
    int any = 0;
    for (int i = 1; i < count; i++) {
        int found = strcmp(words[i], "--quick") == 0;
        *quick |= found;
        for (int p = 0; p < PARTS; p++) {
            if (strcmp(words[i], parts[p].name) != 0) continue;
            found = any = asked[p] = 1;
        }
        if (!found) return 0;
    }
    for (int p = 0; p < PARTS && !any; p++) asked[p] = 1;
    return 1;
}

int main(int argc, char **argv) {
    int quick = 0, asked[PARTS] = {0};
    if (!read_words(argc, argv, &quick, asked)) {
        fprintf(stderr, "usage: bench [--quick] [calls] [bad] [growth] [inner]\n");
        return 2;
    }
    struct effort effort = {quick ? 5 : 9, quick ? 1e-3 : 5e-3};
    check_calls();
    check_images();
    printf("A ratio is the median of five or more repeats. In each, both times are the fastest of several runs.\n");
    for (int p = 0; p < PARTS; p++)
        if (asked[p]) parts[p].measure(quick, effort);
    return 0;
}
