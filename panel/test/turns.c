#include "turns.h"

#include <assert.h>
#include <stddef.h>
#include <string.h>

#include "chance.h"
#include "sheet.h"

#define MOST_SECTIONS 16
/* Train numbers of a turn have four digits: even ones go up, odd ones go down. */
#define FIRST_TRAIN 1000
#define TRAIN_PAIRS 4500

/* The calls that take a train through one section, and those of them that name the train. */
static const char order[] = "GOEFRHTLSDZ";
static const char train_calls[] = "ETL";
#define STEPS (sizeof order - 1)

struct train {
    bool placed;
    bool up;
    uint32_t number;
    uint32_t post;
    size_t step;
};

/* Section s lies between the posts s and s + 1. */
struct turn {
    uint32_t sections;
    uint32_t trains;
    struct train train[MOST_TRAINS];
    bool taken[MOST_SECTIONS];
};

static struct turn turn;

uint32_t any_trains(void)
{
    return 1 + below(MOST_TRAINS);
}

void start_turn(uint32_t trains)
{
    memset(&turn, 0, sizeof turn);
    turn.sections = 1 + below(MOST_SECTIONS);
    turn.trains = trains;
}

void put_good_heading(void)
{
    sheet.heading = HEADING_GOOD;
    put_byte('I');
    put_field(turn.sections);
    put_field(below(turn.sections + 1));
    put_byte('\n');
}

void start_good_turn(uint32_t trains)
{
    start_turn(trains);
    put_good_heading();
}

static void place_train(struct train *train)
{
    train->placed = true;
    train->up = coin();
    train->number = FIRST_TRAIN + 2 * below(TRAIN_PAIRS) + (train->up ? 0 : 1);
    train->post = below(turn.sections) + (train->up ? 0 : 1);
    train->step = 0;
    put_train_call('N', train->number, train->post);
}

static void withdraw_train(struct train *train)
{
    put_withdrawal(train->number);
    train->placed = false;
}

static bool at_last_post(const struct train *train)
{
    return train->post == (train->up ? turn.sections : 0);
}

/* The section that the train is within, or is to enter next. */
static uint32_t section_of(const struct train *train)
{
    return train->up ? train->post : train->post - 1;
}

static void next_step(struct train *train)
{
    uint32_t section = section_of(train);
    char letter = order[train->step];

    turn.taken[section] = true;
    if (strchr(train_calls, letter) != NULL)
        put_train_call(letter, train->number, section);
    else
        put_section_call(letter, section, train->up);
    if (++train->step < STEPS)
        return;
    train->step = 0;
    turn.taken[section] = false;
    train->post = train->up ? train->post + 1 : train->post - 1;
}

/* Writes the train's next line, or says that the train waits for a section. */
static bool move_train(struct train *train)
{
    if (!train->placed)
        place_train(train);
    else if (at_last_post(train))
        withdraw_train(train);
    else if (train->step == 0 && turn.taken[section_of(train)])
        return false;
    else
        next_step(train);
    return true;
}

/* One line always: a train waits only for one that is within a section, which can move. */
void put_move(void)
{
    uint32_t first = below(turn.trains);

    for (uint32_t i = 0; i < turn.trains; i++)
        if (move_train(&turn.train[(first + i) % turn.trains]))
            return;
    assert(false);
}

void put_moves(uint32_t lines)
{
    while (lines-- > 0)
        put_move();
}

uint32_t turn_section(void)
{
    return below(turn.sections);
}

bool turn_train(uint32_t *number)
{
    const struct train *train = &turn.train[below(turn.trains)];

    *number = train->number;
    return train->placed;
}
