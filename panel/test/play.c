/* For processes, pipes and alarms, which C alone does not have. */
#define _POSIX_C_SOURCE 200809L

#include "play.h"

#include <inttypes.h>
#include <stdbool.h>
#include <stdio.h>
#include <string.h>
#include <sys/wait.h>
#include <unistd.h>

#include "count.h"
#include "report.h"
#include "sheet.h"
#include "sheet_file.h"

/* Play has this long for one sheet. */
#define PLAY_SECONDS 10
/* What a child that could not become play ends with, as shells have it. */
#define NOT_STARTED 127
#define REFUSAL_ROOM 32

static struct reply reply;

static _Noreturn void become_play(const char *program, int input, const int ends[2])
{
    if (dup2(input, STDIN_FILENO) < 0 || dup2(ends[1], STDOUT_FILENO) < 0)
        _exit(NOT_STARTED);
    close(input);
    close(ends[0]);
    close(ends[1]);
    alarm(PLAY_SECONDS);
    execl(program, program, (char *)NULL);
    _exit(NOT_STARTED);
}

static void read_reply(int from)
{
    reply.length = 0;
    while (reply.length < REPLY_ROOM) {
        ssize_t part = read(from, reply.bytes + reply.length, REPLY_ROOM - reply.length);

        if (part < 0)
            die("reading from play");
        if (part == 0)
            return;
        reply.length += (size_t)part;
    }
}

static void check_end_of_play(const char *program, int status)
{
    if (WIFEXITED(status) && WEXITSTATUS(status) == NOT_STARTED)
        stop(program, "could not be started");
    if (reply.length > GOMTAIWU_ANSWER_MOST)
        differ("play printed more than %zu bytes", GOMTAIWU_ANSWER_MOST);
    if (WIFSIGNALED(status))
        differ("play was stopped by signal %d", WTERMSIG(status));
    if (WEXITSTATUS(status) != 0)
        differ("play ended with status %d", WEXITSTATUS(status));
}

static void run_play(const char *program, int input)
{
    int ends[2];
    int status;
    pid_t child;

    if (pipe(ends) != 0)
        die("pipe");
    child = fork();
    if (child < 0)
        die("fork");
    if (child == 0)
        become_play(program, input, ends);
    close(ends[1]);
    read_reply(ends[0]);
    close(ends[0]);
    if (waitpid(child, &status, 0) != child)
        die("waitpid");
    check_end_of_play(program, status);
}

static bool reply_is(const char *text)
{
    return reply.length == strlen(text) && memcmp(reply.bytes, text, reply.length) == 0;
}

static bool reply_begins(const char *text)
{
    return reply.length >= strlen(text) && memcmp(reply.bytes, text, strlen(text)) == 0;
}

static int32_t refusal_of_reply(void)
{
    static const int32_t refusals[] = {GOMTAIWU_REFUSED_SIZE, GOMTAIWU_REFUSED_HEADING};
    char text[REFUSAL_ROOM];

    for (size_t i = 0; i < COUNT(refusals); i++) {
        snprintf(text, sizeof text, "no %" PRId32 "\n", refusals[i]);
        if (reply_is(text))
            return refusals[i];
    }
    if (reply_begins("no "))
        differ("play refuses with what is no refusal of play");
    return 0;
}

/* What is known of the sheet without the library has to be what play says. */
static void check_reply(void)
{
    bool over = over_limit();

    if (over != (reply.refusal == GOMTAIWU_REFUSED_SIZE))
        differ("a sheet of %zu bytes and %zu lines, and play says %" PRId32, sheet.length,
               sheet.lines, reply.refusal);
    if (!over && sheet.heading == HEADING_BAD && reply.refusal != GOMTAIWU_REFUSED_HEADING)
        differ("a bad heading, and play says %" PRId32, reply.refusal);
    if (!over && sheet.heading == HEADING_GOOD && reply.refusal != 0)
        differ("a good heading, and play says %" PRId32, reply.refusal);
    if (sheet.known_answer != NULL && !reply_is(sheet.known_answer))
        differ("play has another answer to the example");
}

const struct reply *ask_play(const char *program)
{
    now_doing("play");
    run_play(program, save_sheet());
    reply.refusal = refusal_of_reply();
    check_reply();
    return &reply;
}

unsigned long count_ok(const struct reply *reply)
{
    static const char ok[] = " ok\n";
    size_t length = strlen(ok);
    unsigned long count = 0;

    for (size_t i = 0; i + length <= reply->length; i++)
        count += memcmp(reply->bytes + i, ok, length) == 0;
    return count;
}
