/* Messages: what goes on, and the ends of the test, by a difference, a signal or a failure. */
#ifndef PANEL_TEST_REPORT_H
#define PANEL_TEST_REPORT_H

#include <stdint.h>

/* So the compiler holds the arguments to the format. */
#define LIKE_PRINTF __attribute__((format(printf, 1, 2)))

/*
 * Where the sheet lies: a difference leaves the file there and names it, a
 * failure removes it. The name is not copied.
 */
void report_file(const char *name);

/* Which sheet is tried, and what is done with it, for every message from then on. */
void now_sheet(uint64_t seed, unsigned long index);
LIKE_PRINTF void now_doing(const char *format, ...);

/* Signals end the test with a message and the sheet. */
void catch_signals(void);

/* Ends the test with the difference, what was being done, and the sheet. */
LIKE_PRINTF _Noreturn void differ(const char *format, ...);

/* Ends the test where it could not be made, which says nothing of the sheet. */
_Noreturn void stop(const char *what, const char *why);

/* The same, and errno says why. */
_Noreturn void die(const char *what);

#endif
