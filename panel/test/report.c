/* For SA_ONSTACK, beside what POSIX has. */
#define _XOPEN_SOURCE 700

#include "report.h"

#include <errno.h>
#include <inttypes.h>
#include <signal.h>
#include <stdarg.h>
#include <stdio.h>
#include <stdlib.h>
#include <string.h>
#include <unistd.h>

#include "count.h"
#include "sheet.h"

/* How much of a sheet a message shows; the file has it all. */
#define SHOWN_BYTES 4000
/* A byte that cannot be printed is shown as \xNN. */
#define SHOWN_WIDTH 4
#define HEX 16

#define DOING_ROOM 160

/* A text that is always ready, since a signal handler can make none. */
static char doing[DOING_ROOM] = "starting";

static uint64_t sheet_seed;
static unsigned long sheet_index;
static const char *sheet_name = "";

void report_file(const char *name)
{
    sheet_name = name;
}

void now_sheet(uint64_t seed, unsigned long index)
{
    sheet_seed = seed;
    sheet_index = index;
}

void now_doing(const char *format, ...)
{
    va_list arguments;
    /* Two numbers and a few words never fill the room. */
    int used = snprintf(doing, sizeof doing, "sheet %lu of seed %" PRIu64 ", ", sheet_index,
                        sheet_seed);

    va_start(arguments, format);
    vsnprintf(doing + used, sizeof doing - (size_t)used, format, arguments);
    va_end(arguments);
}

/* Only write is used from here to on_signal: a signal handler may call no more than that. */
static void say_bytes(const char *bytes, size_t length)
{
    while (length > 0) {
        ssize_t done = write(STDERR_FILENO, bytes, length);

        if (done <= 0)
            return;
        bytes += done;
        length -= (size_t)done;
    }
}

static void say(const char *text)
{
    say_bytes(text, strlen(text));
}

static size_t show_byte(char *out, uint8_t byte)
{
    static const char digits[] = "0123456789abcdef";

    if (byte == '\n' || (byte >= ' ' && byte <= '~' && byte != '\\')) {
        out[0] = (char)byte;
        return 1;
    }
    out[0] = '\\';
    out[1] = 'x';
    out[2] = digits[byte / HEX];
    out[3] = digits[byte % HEX];
    return SHOWN_WIDTH;
}

static void say_sheet(void)
{
    static char shown[SHOWN_BYTES * SHOWN_WIDTH];
    size_t most = sheet.length < SHOWN_BYTES ? sheet.length : SHOWN_BYTES;
    size_t length = 0;

    for (size_t i = 0; i < most; i++)
        length += show_byte(shown + length, sheet.bytes[i]);
    say("---- the sheet ----\n");
    say_bytes(shown, length);
    say(most < sheet.length ? "\n---- and more: all of it is in " : "\n---- it is in ");
    say(sheet_name);
    say("\n");
}

static const char *signal_text(int number)
{
    switch (number) {
    case SIGSEGV:
    case SIGBUS:
        return "memory that may not be touched was touched";
    case SIGALRM:
        return "no end within the time";
    default:
        return "stopped by a signal";
    }
}

static void on_signal(int number)
{
    say("panel_test: ");
    say(signal_text(number));
    say(": ");
    say(doing);
    say("\n");
    say_sheet();
    _exit(EXIT_FAILURE);
}

void catch_signals(void)
{
    static const int caught[] = {SIGSEGV, SIGBUS, SIGILL, SIGFPE, SIGABRT, SIGTRAP, SIGALRM};
    struct sigaction action;

    memset(&action, 0, sizeof action);
    action.sa_handler = on_signal;
    action.sa_flags = SA_ONSTACK;
    for (size_t i = 0; i < COUNT(caught); i++)
        if (sigaction(caught[i], &action, NULL) != 0)
            die("sigaction");
}

void differ(const char *format, ...)
{
    va_list arguments;

    fprintf(stderr, "panel_test: difference: %s: ", doing);
    va_start(arguments, format);
    vfprintf(stderr, format, arguments);
    va_end(arguments);
    fputc('\n', stderr);
    say_sheet();
    exit(EXIT_FAILURE);
}

void stop(const char *what, const char *why)
{
    fprintf(stderr, "panel_test: %s: %s\n", what, why);
    if (sheet_name[0] != '\0')
        unlink(sheet_name);
    exit(EXIT_FAILURE);
}

void die(const char *what)
{
    stop(what, strerror(errno));
}
