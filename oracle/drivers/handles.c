/* Reads the oracle's lines, makes them with a port, and prints the oracle's answers. So the two outputs can be compared
   byte by byte. A line `error: ..` says what no answer of the oracle can. See README.md. */
#include "port.h"

#include <stdio.h>
#include <stdlib.h>
#include <string.h>

/* Of any image. */
#define HIGHEST_PLACE 65535
/* So few that neither they nor their answers fill a pipe. */
#define ASKED_AT_ONCE 64

/* Handle n is at n - 1. */
static struct handle {
    uint32_t place;
    bool live, pinned;
} *handles;
static uint32_t given, room;

/* ## Handles */

/* The lowest live handle of a place, of the first ones; 0 if there is none. */
static uint32_t lowest_handle(uint32_t place, uint32_t first_ones)
{
    for (uint32_t at = 0; at < first_ones; at++)
        if (handles[at].live && handles[at].place == place)
            return at + 1;
    return 0;
}

/* Whether a place of a loaded image has holds that no handle stands for. */
static bool is_pinned(uint32_t place)
{
    for (uint32_t at = 0; at < given; at++)
        if (handles[at].pinned && handles[at].place == place)
            return true;
    return false;
}

static bool is_live(uint32_t handle)
{
    return handle != 0 && handle <= given && handles[handle - 1].live;
}

/* The shape number for a handle. A released one keeps its place where nothing else holds it: such a place is free or
   without holds, so that it is refused as well. One that was never given must not name a place. */
static uint32_t shape_number(uint32_t handle)
{
    if (handle == 0 || handle > given)
        return handle > HIGHEST_PLACE ? handle : 0;
    uint32_t place = handles[handle - 1].place;
    return is_live(handle) || (lowest_handle(place, given) == 0 && !is_pinned(place)) ? place : 0;
}

static uint32_t give(uint32_t place, bool pinned)
{
    if (given == room) {
        room = room == 0 ? 1024 : 2 * room;
        handles = realloc(handles, room * sizeof *handles);
        if (handles == NULL)
            exit(2);
    }
    handles[given] = (struct handle){.place = place, .live = true, .pinned = pinned};
    return ++given;
}

static void give_loaded(uint32_t place, bool pinned)
{
    give(place, pinned);
}

/* ## Lines */

/* The number at the front of a text, which is moved behind it; -1 if there is none below 2^32. */
static int64_t read_number(const char **text)
{
    int64_t number = **text >= '0' && **text <= '9' ? 0 : -1;
    for (; **text >= '0' && **text <= '9' && number <= UINT32_MAX; ++*text)
        number = 10 * number + (**text - '0');
    return number <= UINT32_MAX ? number : -1;
}

/* Whether a text with its line feed has document 01's form. */
static bool parse(const char *text, size_t length, struct line *line)
{
    static const char letters[] = "RUICDPFHVS?N";
    static const int numbers[] = {0, 0, 3, 3, 2, 2, 1, 1, 1, 0, 0, 0};
    const char *letter = memchr(letters, text[0], sizeof letters - 1);
    if (letter == NULL || text[length - 1] != '\n' || length - 1 > LONGEST_LINE)
        return false;
    *line = (struct line){.letter = *letter, .rest = text + 1};
    const char *at = text + 1;
    for (int n = 0; n < numbers[letter - letters]; n++) {
        int64_t number = *at++ == ' ' ? read_number(&at) : -1;
        if (number < 0)
            return false;
        line->numbers[n] = (uint32_t)number;
        if (n == 0) {
            line->rest = at;
            line->digits = (int)(at - text - 2);
        }
    }
    return at == text + length - 1;
}

/* ## Answers */

static void print_wrong(struct answer answer)
{
    printf("error: answered %u %u %u %u\n", answer.refusal, answer.first, answer.second, answer.third);
}

static void print_refusal(struct answer answer)
{
    if (answer.first != 0 || answer.second != 0 || answer.third != 0)
        print_wrong(answer);
    printf("refused %u\n", answer.refusal);
}

static void answer_release(uint32_t handle, struct answer answer)
{
    if (answer.first != 0 || answer.second != 0 || answer.third != 0 || !is_live(handle))
        print_wrong(answer);
    else
        handles[handle - 1].live = false;
    printf("released %u\n", handle);
}

static void print_freed(const char *word, struct answer answer)
{
    if (answer.refusal != 0 || answer.third != 0)
        print_wrong(answer);
    printf("%s %u %u\n", word, answer.first, answer.second);
}

static void print_none(struct answer answer)
{
    if (answer.second != 0 || answer.third != 0)
        print_wrong(answer);
    printf("none\n");
}

/* A line of the step runner, or one that holds a shape or its previous. */
static void answer_line(struct line line)
{
    struct answer answer;
    uint32_t handle = line.numbers[0];
    line.numbers[0] = shape_number(handle);
    port_ask(&line, 1, &answer);
    if (answer.refusal != 0)
        print_refusal(answer);
    else if (line.letter == 'F')
        answer_release(handle, answer);
    else if (line.letter == 'S')
        print_freed("swept", answer);
    else if (line.letter == 'V' && answer.first == 0)
        print_none(answer);
    else {
        uint32_t same = lowest_handle(answer.first, given);
        port_show(give(answer.first, false), answer.first, same, &answer);
    }
}

static void show_live(void)
{
    uint32_t live = 0;
    for (uint32_t at = 0; at < given; at++)
        live += handles[at].live;
    printf("live %u\n", live);
    for (uint32_t at = 0; at < given; at++)
        if (handles[at].live)
            port_show(at + 1, handles[at].place, lowest_handle(handles[at].place, at), NULL);
}

/* Asks for some releases, all of which have to be granted. */
static void ask_releases(const struct line *lines, size_t count)
{
    struct answer answers[ASKED_AT_ONCE];
    port_ask(lines, count, answers);
    for (size_t at = 0; at < count; at++)
        if (answers[at].refusal != 0)
            print_wrong(answers[at]);
}

/* Releases and sweeps all that the run left, and counts handles from 1 again. */
static void new_run(void)
{
    struct line lines[ASKED_AT_ONCE];
    size_t count = 0;
    for (uint32_t at = 0; at < given; at++) {
        if (handles[at].live)
            lines[count++] = (struct line){'F', {handles[at].place}, .digits = 1, .rest = "\n"};
        if (count == ASKED_AT_ONCE || at + 1 == given) {
            ask_releases(lines, count);
            count = 0;
        }
    }
    given = 0;
    struct answer freed;
    port_ask(&(struct line){.letter = 'S', .rest = "\n"}, 1, &freed);
    print_freed("ended", freed);
    port_new_run();
}

int main(int count, char **arguments)
{
    (void)count;
    port_start(arguments + 1);
    char *text = NULL;
    size_t size = 0;
    ssize_t length;
    while ((length = getline(&text, &size, stdin)) > 0) {
        struct line line;
        if (strncmp(text, "L ", 2) == 0) {
            port_load(text, give_loaded);
            show_live();
        } else if (!parse(text, (size_t)length, &line))
            print_refusal(port_ask_bad(text, (size_t)length));
        else if (line.letter == '?')
            show_live();
        else if (line.letter == 'N')
            new_run();
        else
            answer_line(line);
    }
    free(text);
    free(handles);
    port_finish();
    return 0;
}
