#include "kinds.h"

#include <stdbool.h>

#include "chance.h"
#include "count.h"
#include "limits.h"
#include "odd_lines.h"
#include "sheet.h"
#include "turns.h"
#include "written.h"

/* How many lines of a turn are something else. */
#define ONE_IN_RANDOM 12
#define ONE_IN_DAMAGED 8
#define MOST_SPOILED 10

static uint32_t some_lines(void)
{
    return 1 + below(SHORT_TURN);
}

static void make_one_train(unsigned long round)
{
    (void)round;
    start_good_turn(1);
    put_moves(some_lines());
}

static void make_turn(unsigned long round)
{
    (void)round;
    start_good_turn(any_trains());
    put_moves(some_lines());
}

/* A turn with other lines among its moves. */
static void make_turn_with(void (*put_other)(void), uint32_t times)
{
    start_good_turn(any_trains());
    for (uint32_t left = some_lines(); left > 0; left--) {
        if (one_in(times))
            put_other();
        else
            put_move();
    }
}

static void make_mixed(unsigned long round)
{
    (void)round;
    make_turn_with(put_any_call, ONE_IN_RANDOM);
}

static void make_damaged(unsigned long round)
{
    (void)round;
    make_turn_with(put_damaged_line, ONE_IN_DAMAGED);
}

/* A few moves first, so that the random calls find trains. */
static void make_random(unsigned long round)
{
    (void)round;
    start_good_turn(any_trains());
    put_moves(1 + below(MOST_TRAINS));
    for (uint32_t left = below(SHORT_TURN); left > 0; left--)
        put_any_call();
}

/* Bytes replaced anywhere, so nothing is known of the heading. */
static void make_spoiled(unsigned long round)
{
    make_turn(round);
    sheet.heading = HEADING_OPEN;
    for (uint32_t left = 1 + below(MOST_SPOILED); left > 0; left--) {
        uint32_t at = below((uint32_t)sheet.length);

        sheet.bytes[at] = any_byte();
    }
}

struct kind {
    void (*make)(unsigned long round);
    bool may_drop; /* whether the last line feed may be dropped and all known still holds */
};

static const struct kind kinds[] = {
    {make_one_train, true},   {make_turn, true},           {make_mixed, true},
    {make_damaged, true},     {make_random, true},         {make_bad_heading, true},
    {make_spoiled, true},     {make_many_lines, true},     {make_empty_lines, false},
    {make_many_bytes, false}, {make_far_too_large, false}, {make_small, false},
};

static void make_kind(const struct kind *kind, unsigned long round)
{
    kind->make(round);
    if (kind->may_drop && round % 2 == 1)
        drop_line_feed();
}

void make_sheet(uint64_t seed, unsigned long index)
{
    start_chance(seed, index);
    start_sheet();
    if (index == 0)
        make_example();
    else
        make_kind(&kinds[index % COUNT(kinds)], index / COUNT(kinds));
    finish_sheet();
}
