/* panel SHEET-FILE: plays the turn sheet in a file and prints the answer. */

/* For SIGPIPE, which C alone does not name. */
#define _POSIX_C_SOURCE 200809L

#include <errno.h>
#include <inttypes.h>
#include <signal.h>
#include <stdbool.h>
#include <stdio.h>
#include <stdlib.h>
#include <string.h>

#include "gomtaiwu_panel.h"

/* One byte over the limit is enough to know that the sheet is too large. */
#define SHEET_ROOM (GOMTAIWU_SHEET_MOST_BYTES + 1)

static uint8_t sheet[SHEET_ROOM];
static uint8_t answer[GOMTAIWU_ANSWER_MOST];

/* Reports what failed, and why where the system has said so. */
static bool failed(const char *what)
{
    int reason = errno;

    fprintf(stderr, "panel: %s: %s\n", what, reason != 0 ? strerror(reason) : "failed");
    return false;
}

/* Reads the open file up to its end or one byte over the limit. */
static bool read_sheet(FILE *file, size_t *length)
{
    /* Unbuffered: no byte is taken from the file that is not asked for. */
    if (setvbuf(file, NULL, _IONBF, 0) != 0)
        return false;
    *length = fread(sheet, 1, SHEET_ROOM, file);
    return !ferror(file);
}

static bool load_sheet(const char *name, size_t *length)
{
    FILE *file;
    bool good;

    errno = 0;
    file = fopen(name, "rb");
    if (file == NULL)
        return failed(name);
    good = read_sheet(file, length) || failed(name);
    /* Nothing was written to it, so closing it can lose nothing. */
    fclose(file);
    return good;
}

static bool print_result(int32_t result)
{
    errno = 0;
    if (result < 0)
        printf("no %" PRId32 "\n", -result);
    else
        fwrite(answer, 1, (size_t)result, stdout);
    /* What was only buffered is not yet answered: a full device shows here. */
    if (fflush(stdout) != 0 || ferror(stdout))
        return failed("standard output");
    /* Some file systems tell of a lost write only at the close. */
    if (fclose(stdout) != 0)
        return failed("standard output");
    return true;
}

int main(int argc, char **argv)
{
    size_t length = 0;

    /* A reader that has gone is an error of output like any other. */
    signal(SIGPIPE, SIG_IGN);
    if (argc != 2) {
        fputs("usage: panel SHEET-FILE\n", stderr);
        return EXIT_FAILURE;
    }
    if (!load_sheet(argv[1], &length))
        return EXIT_FAILURE;
    if (!print_result(gomtaiwu_play_sheet(sheet, length, answer, sizeof answer)))
        return EXIT_FAILURE;
    return EXIT_SUCCESS;
}
