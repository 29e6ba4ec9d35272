/* The C calls as the port. The argument is a file with the limits S T K E of each run's image, a line for each. */
#include "inside.h"
#include "port.h"
#include "shapes.h"

#include <inttypes.h>
#include <stdio.h>
#include <stdlib.h>
#include <string.h>

/* What the words of a lent list are beforehand, to see that the rest of it stays: a bad key. */
#define UNWRITTEN UINT32_MAX
/* A held shape of a loaded image has as many handles as holds, and at most this many. */
#define MOST_HANDLES 2

static FILE *limits;
static uint32_t *image, *formatted, *list;
static size_t words;
static uint32_t longest_list;
/* Since an image was loaded, what is inside the shapes is shown too. */
static bool loaded;
/* A loaded shape has more holds than handles, so that some of the image stays. */
static bool some_pinned;

/* Every good key of the run so far: each is looked up in each shape that is shown. */
static uint32_t *keys;
static uint32_t key_count, key_room;

struct entry {
    uint32_t key, attributes, slot;
};

static void *room_for(void *old, size_t count, size_t size)
{
    void *room = realloc(old, count * size);
    if (room == NULL)
        exit(2);
    return room;
}

/* ## The image */

/* Formats the words that an image has in which nothing is left. */
static void format_empty(uint32_t shapes, uint32_t tables, uint32_t keys_per_table, uint32_t edges)
{
    formatted = room_for(formatted, words, sizeof *formatted);
    /* Formatting has to write each word. */
    memset(formatted, 0xff, words * sizeof *formatted);
    struct shapes_reply reply = shapes_format(formatted, words, shapes, tables, keys_per_table, edges);
    if (reply.refusal != 0)
        printf("error: formatting for %u %u %u %u is refused with %u\n", shapes, tables, keys_per_table, edges,
               reply.refusal);
    longest_list = keys_per_table;
    list = room_for(list, longest_list, sizeof *list);
}

static void format_image(uint32_t shapes, uint32_t tables, uint32_t keys_per_table, uint32_t edges)
{
    words = SHAPES_WORDS(shapes, tables, keys_per_table, edges);
    format_empty(shapes, tables, keys_per_table, edges);
    image = room_for(image, words, sizeof *image);
    memcpy(image, formatted, words * sizeof *image);
}

void port_start(char **arguments)
{
    limits = arguments[0] == NULL ? NULL : fopen(arguments[0], "r");
    if (limits == NULL) {
        fprintf(stderr, "usage: c_calls LIMITS  < lines\n");
        exit(2);
    }
    format_image(1, 1, 1, 1);
}

void port_new_run(void)
{
    uint32_t shapes, tables, keys_per_table, edges;
    if (!some_pinned && memcmp(image, formatted, words * sizeof *image) != 0)
        printf("error: an image of which all is released and swept is not as formatted\n");
    key_count = 0;
    loaded = some_pinned = false;
    if (fscanf(limits, "%" SCNu32 " %" SCNu32 " %" SCNu32 " %" SCNu32, &shapes, &tables, &keys_per_table, &edges) == 4)
        format_image(shapes, tables, keys_per_table, edges);
}

void port_finish(void)
{
    fclose(limits);
    free(image);
    free(formatted);
    free(list);
    free(keys);
}

/* ## Calls */

static void note_key(uint32_t key)
{
    for (uint32_t at = 0; at < key_count; at++)
        if (keys[at] == key)
            return;
    if (key >> 30 == 3)
        return;
    if (key_count == key_room) {
        key_room = key_room == 0 ? 64 : 2 * key_room;
        keys = room_for(keys, key_room, sizeof *keys);
    }
    keys[key_count++] = key;
}

/* ## A loaded image */

static void note_keys_of_image(void)
{
    for (uint32_t place = 1; place <= image[HEADER_SHAPES]; place++)
        if (shape_words(image, place)[SHAPE_STATE] != 0) {
            uint32_t table = shape_words(image, place)[SHAPE_TABLE];
            for (uint32_t at = 0; at < table_length(image, table); at++)
                note_key(table_entries(image, table)[3 * at]);
        }
    for (uint32_t number = 0; number < image[HEADER_EDGES]; number++) {
        const uint32_t *edge = edge_words(image, number);
        if (edge[EDGE_PARENT] != 0 && edge[EDGE_KIND] == 0)
            note_key(edge[EDGE_KEY]);
    }
}

static void give_handles(void (*give)(uint32_t place, bool pinned))
{
    for (uint32_t place = 1; place <= image[HEADER_SHAPES]; place++) {
        uint32_t holds = shape_words(image, place)[SHAPE_HOLDS];
        some_pinned |= holds > MOST_HANDLES;
        for (uint32_t handle = 0; handle < holds && handle < MOST_HANDLES; handle++)
            give(place, holds > MOST_HANDLES);
    }
}

/* The line has the number of words, and those that are not 0, each after its place and a colon. Without words the
   formatted image stays. */
static void read_image(const char *text)
{
    char *at;
    size_t count = strtoul(text + 1, &at, 10);
    if (count == 0)
        return;
    words = count;
    image = room_for(image, words, sizeof *image);
    memset(image, 0, words * sizeof *image);
    while (*at == ' ') {
        size_t place = strtoul(at, &at, 10);
        uint32_t word = (uint32_t)strtoul(at + 1, &at, 10);
        if (place < words)
            image[place] = word;
    }
}

void port_load(const char *text, void (*give)(uint32_t place, bool pinned))
{
    read_image(text);
    format_empty(image[HEADER_SHAPES], image[HEADER_TABLES], image[HEADER_KEYS], image[HEADER_EDGES]);
    struct shapes_reply reply = shapes_is_sound(image, words);
    if (reply.refusal != 0)
        printf("error: the loaded image is refused with %u\n", reply.refusal);
    loaded = true;
    note_keys_of_image();
    give_handles(give);
}

static struct shapes_reply call(const struct line *line)
{
    const uint32_t *n = line->numbers;
    switch (line->letter) {
    case 'R':
        return shapes_root(image, words);
    case 'U':
        return shapes_unique(image, words);
    case 'I':
        return shapes_insert(image, words, n[0], n[1], n[2]);
    case 'C':
        return shapes_change(image, words, n[0], n[1], n[2]);
    case 'D':
        return shapes_remove(image, words, n[0], n[1]);
    case 'P':
        return shapes_set_prototype(image, words, n[0], n[1]);
    case 'F':
        return shapes_release(image, words, n[0]);
    case 'H':
        return shapes_hold(image, words, n[0]);
    case 'V':
        return shapes_previous(image, words, n[0]);
    default:
        return shapes_sweep(image, words);
    }
}

void port_ask(const struct line *lines, size_t count, struct answer *answers)
{
    for (size_t at = 0; at < count; at++) {
        if (strchr("ICD", lines[at].letter) != NULL)
            note_key(lines[at].numbers[1]);
        struct shapes_reply reply = call(&lines[at]);
        answers[at] = (struct answer){reply.refusal, reply.first, reply.second, reply.third};
    }
}

/* There is no such call. */
struct answer port_ask_bad(const char *text, size_t length)
{
    (void)text;
    (void)length;
    return (struct answer){BAD_LINE, 0, 0, 0};
}

/* ## What a shape is */

/* The number that a question answers. */
static uint32_t number(const char *question, struct shapes_reply reply)
{
    if (reply.refusal != 0 || reply.second != 0 || reply.third != 0)
        printf("error: %s answered %u %u %u %u\n", question, reply.refusal, reply.first, reply.second, reply.third);
    return reply.first;
}

static int by_slot(const void *left, const void *right)
{
    uint32_t a = ((const struct entry *)left)->slot, b = ((const struct entry *)right)->slot;
    return (a > b) - (a < b);
}

/* Every key of the run that a lookup finds, in the order of their slot indices: that of the table. */
static uint32_t find_entries(uint32_t place, struct entry *entries)
{
    uint32_t found = 0;
    for (uint32_t at = 0; at < key_count; at++) {
        struct shapes_reply reply = shapes_lookup(image, words, place, keys[at]);
        if (reply.refusal == 0 && reply.first == 1)
            entries[found++] = (struct entry){keys[at], reply.third, reply.second};
        else if (reply.refusal != 0 || reply.first != 0 || reply.second != 0 || reply.third != 0)
            printf("error: lookup of %u answered %u %u %u %u\n", keys[at], reply.refusal, reply.first, reply.second,
                   reply.third);
    }
    qsort(entries, found, sizeof *entries, by_slot);
    return found;
}

static void print_entries(const struct entry *entries, uint32_t count)
{
    printf(" entries [");
    for (uint32_t at = 0; at < count; at++)
        printf("%s%u:%u:%u", at == 0 ? "" : " ", entries[at].key, entries[at].attributes, entries[at].slot);
    printf("]");
}

static void print_keys(uint32_t place)
{
    memset(list, 0xff, longest_list * sizeof *list);
    uint32_t count = number("keys", shapes_keys(image, words, place, list, longest_list));
    printf(" keys [");
    for (uint32_t at = 0; at < count && at < longest_list; at++)
        printf("%s%u", at == 0 ? "" : " ", list[at]);
    printf("]\n");
    for (uint32_t at = count; at < longest_list; at++)
        if (list[at] != UNWRITTEN)
            printf("error: keys wrote %u behind its list\n", list[at]);
}

void port_show(uint32_t handle, uint32_t place, uint32_t same, const struct answer *answer)
{
    struct entry entries[key_count + 1];
    uint32_t found = find_entries(place, entries);
    uint32_t properties = number("property_count", shapes_property_count(image, words, place));
    uint32_t transitions = number("transition_count", shapes_transition_count(image, words, place));
    uint32_t shared = number("is_shared", shapes_is_shared(image, words, place));
    uint32_t prototype = number("prototype", shapes_prototype(image, words, place));
    if (properties != found)
        printf("error: %u properties, and %u keys are found\n", properties, found);
    if (answer != NULL && answer->third != transitions)
        printf("error: the call answered %u transitions\n", answer->third);
    printf("shape %u %s count %u action %u proto %u same %u", handle, shared == 1 ? "shared" : "unique", transitions,
           answer == NULL ? 0 : answer->second, prototype, same);
    print_entries(entries, found);
    print_keys(place);
    if (loaded)
        print_trail(image, place);
}
