/* The kinds of sheet, which take turns; each is made anew in each round. */
#ifndef PANEL_TEST_KINDS_H
#define PANEL_TEST_KINDS_H

#include <stdint.h>

/* Makes the sheet of that seed and index, whatever was made before. */
void make_sheet(uint64_t seed, unsigned long index);

#endif
