/* The number of elements of an array. */
#ifndef PANEL_TEST_COUNT_H
#define PANEL_TEST_COUNT_H

#define COUNT(array) (sizeof(array) / sizeof((array)[0]))

#endif
