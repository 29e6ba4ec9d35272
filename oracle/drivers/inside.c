#include "inside.h"

#include <inttypes.h>
#include <stdio.h>
#include <stdlib.h>

/* Of one trail. */
#define MOST_STEPS_SHOWN 16

const uint32_t *shape_words(const uint32_t *image, uint32_t place)
{
    return image + image[HEADER_SHAPES_AT] + (size_t)SHAPE_WORDS * (place - 1);
}

static const uint32_t *table_words(const uint32_t *image, uint32_t place)
{
    return image + image[HEADER_TABLES_AT] + (1 + 3 * (size_t)image[HEADER_KEYS]) * (place - 1);
}

uint32_t table_length(const uint32_t *image, uint32_t place)
{
    return table_words(image, place)[0] - 1;
}

const uint32_t *table_entries(const uint32_t *image, uint32_t place)
{
    return table_words(image, place) + 1;
}

const uint32_t *edge_words(const uint32_t *image, uint32_t number)
{
    return image + image[HEADER_EDGES_AT] + (size_t)EDGE_WORDS * number;
}

static int by_step(const void *left, const void *right)
{
    const uint32_t *a = *(const uint32_t *const *)left, *b = *(const uint32_t *const *)right;
    for (int word = EDGE_KIND; word <= EDGE_ATTRIBUTES; word++)
        if (a[word] != b[word])
            return a[word] > b[word] ? 1 : -1;
    return 0;
}

static void print_edges(const uint32_t *image, uint32_t parent)
{
    const uint32_t *own[image[HEADER_EDGES]];
    uint32_t count = 0;
    for (uint32_t number = 0; number < image[HEADER_EDGES]; number++)
        if (edge_words(image, number)[EDGE_PARENT] == parent)
            own[count++] = edge_words(image, number);
    qsort(own, count, sizeof *own, by_step);
    printf(" edges [");
    for (uint32_t at = 0; at < count; at++)
        printf("%s%" PRIu32 ":%" PRIu32 ":%" PRIu32 ":%d", at == 0 ? "" : " ", own[at][EDGE_KIND], own[at][EDGE_KEY],
               own[at][EDGE_ATTRIBUTES], own[at][EDGE_CHILD] != 0);
    printf("]\n");
}

static void print_table(const uint32_t *image, uint32_t place)
{
    const uint32_t *entry = table_entries(image, place);
    printf(" table [");
    for (uint32_t at = 0; at < table_length(image, place); at++, entry += 3)
        printf("%s%" PRIu32 ":%" PRIu32 ":%" PRIu32, at == 0 ? "" : " ", entry[0], entry[1], entry[2]);
    printf("]");
}

void print_trail(const uint32_t *image, uint32_t place)
{
    if (shape_words(image, place)[SHAPE_STATE] != SHARED)
        return;
    for (int shown = 0; place != 0 && shown < MOST_STEPS_SHOWN; shown++) {
        const uint32_t *shape = shape_words(image, place);
        printf("  step %" PRIu32 " count %" PRIu32 " proto %" PRIu32 " properties %" PRIu32, shape[SHAPE_KIND],
               shape[SHAPE_TRANSITIONS], shape[SHAPE_PROTOTYPE], shape[SHAPE_PROPERTIES]);
        print_table(image, shape[SHAPE_TABLE]);
        printf(" counters [%" PRIu32 " %" PRIu32 "]", shape[SHAPE_PROPERTY_COUNTER], shape[SHAPE_PROTOTYPE_COUNTER]);
        print_edges(image, place);
        place = shape[SHAPE_PREVIOUS];
    }
}
