#include "table.h"

#include <stdio.h>

void print_title(const char *title, const char *base) {
    printf("\n%s\n%-36s %9s %13s  %-30s %9s %22s  %s\n", title, "image", "words", base, "call", "ratio",
           "least to most", "target");
}

static void print_time(double seconds) {
    if (seconds < 1e-6)
        printf(" %10.1f ns", 1e9 * seconds);
    else if (seconds < 1e-3)
        printf(" %10.2f us", 1e6 * seconds);
    else
        printf(" %10.2f ms", 1e3 * seconds);
}

void print_row(const char *image, size_t words, const char *call, struct comparison c, size_t runs, double target) {
    printf("%-36s %9lu", image, (unsigned long)words);
    print_time(c.base / (double)runs);
    printf("  %-30s %9.2f %9.2f to %9.2f", call, c.ratio.median, c.ratio.least, c.ratio.most);
    if (target > 0) printf("  %.1f %s", target, c.ratio.median <= target ? "reached" : "missed");
    printf("\n");
    fflush(stdout);
}
