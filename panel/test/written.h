/* Sheets that are written out, in whole or in their heading, for what chance would hardly find. */
#ifndef PANEL_TEST_WRITTEN_H
#define PANEL_TEST_WRITTEN_H

/* A sheet with its answer, so that not all rests on play. */
void make_example(void);

/* Each round has the next of them. */
void make_bad_heading(unsigned long round);
void make_small(unsigned long round);

#endif
