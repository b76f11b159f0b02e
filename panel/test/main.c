/*
 * panel_test PLAY-PROGRAM [SEED] [SHEETS]
 *
 * Makes sheets, gives each to the program play and to the library's function,
 * and compares. It ends at the first difference.
 */

/* For access and alarm, which C alone does not have. */
#define _POSIX_C_SOURCE 200809L

#include <errno.h>
#include <inttypes.h>
#include <stdbool.h>
#include <stdio.h>
#include <stdlib.h>
#include <unistd.h>

#include "compare.h"
#include "kinds.h"
#include "play.h"
#include "report.h"
#include "sheet.h"
#include "sheet_file.h"

#define DEFAULT_SEED 3020
/* Enough that every bad heading, every small sheet and every limit has its turn. */
#define DEFAULT_SHEETS 360
#define MOST_SHEETS 1000000

/* A little longer than play has, so that the test can tell of it. */
#define SHEET_SECONDS 20

#define DECIMAL 10

struct arguments {
    const char *play;
    uint64_t seed;
    uint64_t sheets;
};

static unsigned long lines_compared;
static unsigned long lines_ok;

static bool read_number(const char *text, uint64_t least, uint64_t most, uint64_t *number)
{
    char *end;

    /* strtoull would also take a sign or a space before the number. */
    if (text[0] < '0' || text[0] > '9')
        return false;
    errno = 0;
    *number = strtoull(text, &end, DECIMAL);
    return errno == 0 && *end == '\0' && *number >= least && *number <= most;
}

static bool read_arguments(int argc, char **argv, struct arguments *arguments)
{
    if (argc < 2 || argc > 4)
        return false;
    arguments->play = argv[1];
    arguments->seed = DEFAULT_SEED;
    arguments->sheets = DEFAULT_SHEETS;
    if (argc > 2 && !read_number(argv[2], 0, UINT64_MAX, &arguments->seed))
        return false;
    return argc < 4 || read_number(argv[3], 1, MOST_SHEETS, &arguments->sheets);
}

static void try_sheet(const struct arguments *arguments, unsigned long index)
{
    const struct reply *reply;

    alarm(SHEET_SECONDS);
    now_sheet(arguments->seed, index);
    now_doing("making it");
    make_sheet(arguments->seed, index);
    reply = ask_play(arguments->play);
    compare_sheet(reply);
    lines_compared += sheet.lines;
    lines_ok += count_ok(reply);
}

static void try_sheets(const struct arguments *arguments)
{
    for (unsigned long index = 0; index < arguments->sheets; index++)
        try_sheet(arguments, index);
    alarm(0);
}

int main(int argc, char **argv)
{
    struct arguments arguments;

    if (!read_arguments(argc, argv, &arguments)) {
        fputs("usage: panel_test PLAY-PROGRAM [SEED] [SHEETS]\n", stderr);
        return EXIT_FAILURE;
    }
    if (access(arguments.play, X_OK) != 0)
        die(arguments.play);
    open_sheet_file();
    catch_signals();
    prepare_compare();
    try_sheets(&arguments);
    remove_sheet_file();
    printf("panel: %" PRIu64 " sheets, %lu lines (%lu ok), %lu calls: no difference\n",
           arguments.sheets, lines_compared, lines_ok, calls_compared());
    return fflush(stdout) == 0 ? EXIT_SUCCESS : EXIT_FAILURE;
}
