#include "limits.h"

#include <stdbool.h>
#include <stddef.h>
#include <stdint.h>

#include "chance.h"
#include "gomtaiwu_panel.h"
#include "odd_lines.h"
#include "sheet.h"
#include "turns.h"

/* So many moves stay well below both limits. */
#define MOVES_IN_LARGE 900
/* How long a line of padding is, on average. */
#define PADDING_LINE 80
/* One below, at it and one above. */
#define AROUND 3

static size_t around(size_t limit, unsigned long round)
{
    return limit - 1 + round % AROUND;
}

void make_many_lines(unsigned long round)
{
    start_good_turn(any_trains());
    /* The heading is a line too. */
    put_moves((uint32_t)around(GOMTAIWU_SHEET_MOST_LINES, round) - 1);
}

/* Every line feed counts, also those of empty lines. */
void make_empty_lines(unsigned long round)
{
    size_t lines = around(GOMTAIWU_SHEET_MOST_LINES, round);

    start_turn(1);
    sheet.heading = HEADING_BAD;
    if (coin())
        put_good_heading();
    else
        put_byte('\n');
    for (size_t i = 1; i < lines; i++)
        put_byte('\n');
    if (coin())
        put_byte(any_byte());
}

/* Long lines of any bytes up to the given size; the last line is finished or not. */
static void pad_to(size_t size, bool finished)
{
    while (sheet.length < size - 1)
        put_byte(one_in(PADDING_LINE) ? '\n' : chance_byte());
    put_byte(finished ? '\n' : 'u');
}

void make_many_bytes(unsigned long round)
{
    start_good_turn(any_trains());
    put_moves(1 + below(MOVES_IN_LARGE));
    pad_to(around(GOMTAIWU_SHEET_MOST_BYTES, round), coin());
}

void make_far_too_large(unsigned long round)
{
    bool finished;

    (void)round;
    start_good_turn(any_trains());
    put_moves(MOVES_IN_LARGE);
    /* Taken before the size, since C leaves the order of arguments open. */
    finished = coin();
    pad_to(GOMTAIWU_SHEET_MOST_BYTES + 1 + below(SHEET_ROOM - GOMTAIWU_SHEET_MOST_BYTES),
           finished);
}
