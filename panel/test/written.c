#include "written.h"

#include <stddef.h>

#include "chance.h"
#include "count.h"
#include "sheet.h"
#include "turns.h"

struct small {
    const char *bytes;
    size_t length;
    enum heading heading;
};

/* The zero byte that ends a C text is no part of the sheet. */
#define SMALL(text, heading) {text, sizeof(text) - 1, heading}

static const char example_sheet[] =
    "I 2 1\nN 3020 0\nG 0 u\nO 0 u\nE 3020 0\nG 0 d\nF 0 u\nR 0 u\nH 0 u\nT 3020 0\nL 3020 0\n"
    "D 0 u\nS 0 u\nD 0 u\nZ 0 u\nG 1 u\nX\n";
static const char example_answer[] =
    "turn 2 1\n2 ok\n3 ok\n4 ok\n5 ok\n6 no 302 0 2\n7 ok\n8 ok\n9 ok\n10 ok\n11 ok\n12 no 211\n"
    "13 ok\n14 ok\n15 ok\n16 ok\n17 no 103 0\ns 0 0 0 1 1 0\ns 1 1 0 1 0 0\n";

void make_example(void)
{
    sheet.heading = HEADING_GOOD;
    sheet.known_answer = example_answer;
    put_text(example_sheet);
}

void make_bad_heading(unsigned long round)
{
    static const char *const headings[] = {
        "", "I", "I ", "I 2", "I 2 ", "I 2 1 ", "I 2 1 0", "I 2 1 u", "I  2 1", "I 2  1", " I 2 1",
        "I 0 0", "I 17 0", "I 17 17", "I 2 3", "I 16 17", "I 02 1", "I 2 01", "I 2 00", "i 2 1",
        "N 3020 0", "I -2 1", "I 2 -1", "I +2 1", "I 2 1\r", "I\t2 1", "I 65537 1", "I 65538 0",
        "I 2 65536", "I 100000 0",
    };

    start_turn(any_trains());
    sheet.heading = HEADING_BAD;
    put_text(headings[round % COUNT(headings)]);
    put_byte('\n');
    put_moves(below(SHORT_TURN));
}

void make_small(unsigned long round)
{
    static const struct small smalls[] = {
        SMALL("", HEADING_BAD),           SMALL("I 1 0\n", HEADING_GOOD),
        SMALL("\n", HEADING_BAD),         SMALL("I 16 16\n", HEADING_GOOD),
        SMALL("\0", HEADING_BAD),         SMALL("I 1 0", HEADING_OPEN),
        SMALL("\0\n", HEADING_BAD),       SMALL("I 16 16\n\n", HEADING_GOOD),
        SMALL("\n\n", HEADING_BAD),       SMALL("I 1 1\n\0\n", HEADING_GOOD),
        SMALL("I", HEADING_BAD),          SMALL("I 1 1\n\0", HEADING_GOOD),
        SMALL("\377", HEADING_BAD),       SMALL("I 2 1\nW 0", HEADING_GOOD),
        SMALL("I 2 1\0\n", HEADING_BAD),  SMALL("I 2 1\n \n", HEADING_GOOD),
        SMALL("I 2\n1\n", HEADING_BAD),   SMALL("I 2 0\nI 2 0\n", HEADING_GOOD),
        SMALL("I 2 1\r\n", HEADING_BAD),  SMALL("I 9 0\nG 0 u", HEADING_GOOD),
        SMALL("u", HEADING_BAD),          SMALL("I 9 9\nG 8 d\n\377\200", HEADING_GOOD),
    };
    const struct small *small = &smalls[round % COUNT(smalls)];

    sheet.heading = small->heading;
    put_bytes(small->bytes, small->length);
}
