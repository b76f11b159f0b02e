/* The comparison: the library's function has to do with the sheet what play did. */
#ifndef PANEL_TEST_COMPARE_H
#define PANEL_TEST_COMPARE_H

#include "play.h"

/* Once, before the first comparison. */
void prepare_compare(void);

/* Calls the function with the sheet, in each place and with each length of the buffer. */
void compare_sheet(const struct reply *reply);

/* How many calls there were so far. */
unsigned long calls_compared(void);

#endif
