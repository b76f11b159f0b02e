/* Lines that the normal order would not have: calls at random, and damaged ones. */
#ifndef PANEL_TEST_ODD_LINES_H
#define PANEL_TEST_ODD_LINES_H

#include <stdint.h>

/* Often one that means something in a sheet, or that readers get wrong. */
uint8_t any_byte(void);

/* A whole call, often about what the turn knows. */
void put_any_call(void);

/* Such a call with one damage. */
void put_damaged_line(void);

#endif
