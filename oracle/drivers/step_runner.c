/* A step runner as the port: a program that reads document 01's lines and answers after each block that it reads. The
   arguments are two files, for all that it is sent and for all its answers, and its command. */
#include "port.h"

#include <inttypes.h>
#include <signal.h>
#include <stdio.h>
#include <stdlib.h>
#include <string.h>
#include <sys/wait.h>
#include <unistd.h>

/* In seconds. A runner that keeps its answers until its input ends would be waited for without end. */
#define SLOWEST_ANSWER 20
#define LONGEST_ANSWER 44

static pid_t runner;
static FILE *to_runner, *from_runner;
static FILE *all_sent, *all_answers;

static void give_up(const char *why)
{
    fprintf(stderr, "%s\n", why);
    exit(2);
}

/* The runner does what no answer of the oracle says, and cannot be asked further. */
static void end_with_error(const char *what)
{
    printf("error: the runner %s\n", what);
    exit(0);
}

static void stop_waiting(int signal_number)
{
    static const char why[] = "the runner did not answer in time\n";
    (void)signal_number;
    _exit(write(STDERR_FILENO, why, sizeof why - 1) < 0 ? 3 : 2);
}

static void become(char **command, int input, int output)
{
    dup2(input, STDIN_FILENO);
    dup2(output, STDOUT_FILENO);
    execvp(command[0], command);
    give_up("the runner cannot be run");
}

void port_start(char **arguments)
{
    int lines[2], answers[2];
    if (arguments[0] == NULL || arguments[1] == NULL || arguments[2] == NULL)
        give_up("usage: step_runner SENT ANSWERS COMMAND..  < lines");
    all_sent = fopen(arguments[0], "w");
    all_answers = fopen(arguments[1], "w");
    if (all_sent == NULL || all_answers == NULL || pipe(lines) != 0 || pipe(answers) != 0)
        give_up("a file or a pipe cannot be opened");
    runner = fork();
    if (runner == 0) {
        close(lines[1]);
        close(answers[0]);
        become(arguments + 2, lines[0], answers[1]);
    }
    close(lines[0]);
    close(answers[1]);
    to_runner = fdopen(lines[1], "w");
    from_runner = fdopen(answers[0], "r");
    if (runner < 0 || to_runner == NULL || from_runner == NULL)
        give_up("the runner cannot be started");
    signal(SIGALRM, stop_waiting);
    signal(SIGPIPE, SIG_IGN);
}

static struct answer read_answer(void)
{
    char text[LONGEST_ANSWER + 2], again[LONGEST_ANSWER + 2];
    struct answer got;
    if (fgets(text, sizeof text, from_runner) == NULL)
        end_with_error("ended before its input did");
    int numbers = sscanf(text, "%" SCNu32 " %" SCNu32 " %" SCNu32 " %" SCNu32, &got.refusal, &got.first, &got.second,
                         &got.third);
    /* What is read is lenient; what is written is the one right form. */
    if (numbers == 4)
        snprintf(again, sizeof again, "%" PRIu32 " %" PRIu32 " %" PRIu32 " %" PRIu32 "\n", got.refusal, got.first,
                 got.second, got.third);
    if (numbers != 4 || strcmp(text, again) != 0)
        end_with_error("answered something else than four numbers");
    fputs(text, all_answers);
    return got;
}

static void send(const char *text, size_t length)
{
    fwrite(text, 1, length, to_runner);
    fwrite(text, 1, length, all_sent);
}

static void wait_for_answers(void)
{
    fflush(to_runner);
    alarm(SLOWEST_ANSWER);
}

void port_ask(const struct line *lines, size_t count, struct answer *answers)
{
    for (size_t at = 0; at < count; at++) {
        const struct line *line = &lines[at];
        char text[LONGEST_LINE + 16] = {line->letter};
        /* At least as many digits as the handle has, so that a line of the greatest length keeps it. */
        if (line->digits > 0)
            sprintf(text + 1, " %0*" PRIu32, line->digits, line->numbers[0]);
        strcat(text, line->rest);
        send(text, strlen(text));
    }
    wait_for_answers();
    for (size_t at = 0; at < count; at++)
        answers[at] = read_answer();
}

struct answer port_ask_bad(const char *text, size_t length)
{
    send(text, length);
    wait_for_answers();
    /* An unended line is answered when the input has ended. */
    if (text[length - 1] != '\n') {
        fclose(to_runner);
        to_runner = NULL;
    }
    return read_answer();
}

void port_load(const char *text, void (*give)(uint32_t place, bool pinned))
{
    (void)text;
    (void)give;
    give_up("a step runner has an image of its own");
}

/* The oracle says as much with --brief. */
void port_show(uint32_t handle, uint32_t place, uint32_t same, const struct answer *answer)
{
    (void)place;
    if (answer == NULL)
        give_up("a runner cannot be asked for what is live");
    printf("shape %u count %u action %u same %u\n", handle, answer->third, answer->second, same);
}

void port_new_run(void)
{
}

void port_finish(void)
{
    int status;
    if (to_runner != NULL)
        fclose(to_runner);
    alarm(SLOWEST_ANSWER);
    if (fgetc(from_runner) != EOF)
        end_with_error("answered more than it was asked");
    if (waitpid(runner, &status, 0) != runner || status != 0)
        end_with_error("ended with a failure");
    fclose(all_sent);
    fclose(all_answers);
}
