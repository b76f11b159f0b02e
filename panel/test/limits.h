/* Sheets around the largest that is played, in lines and in bytes, and far above it. */
#ifndef PANEL_TEST_LIMITS_H
#define PANEL_TEST_LIMITS_H

/* Three rounds try one below the limit, the limit itself and one above it. */
void make_many_lines(unsigned long round);
void make_empty_lines(unsigned long round);
void make_many_bytes(unsigned long round);

void make_far_too_large(unsigned long round);

#endif
