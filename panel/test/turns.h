/* A turn: trains that move by the normal order of calls, each move one line of the sheet. */
#ifndef PANEL_TEST_TURNS_H
#define PANEL_TEST_TURNS_H

#include <stdbool.h>
#include <stdint.h>

#define MOST_TRAINS 4
/* The moves of a short turn. */
#define SHORT_TURN 250

/* From one train to the most that a turn has. */
uint32_t any_trains(void);

/* Starts a turn on a line of any length; nothing is written yet. */
void start_turn(uint32_t trains);

/* The heading of that line. */
void put_good_heading(void);

/* The two together. */
void start_good_turn(uint32_t trains);

/* One line always. */
void put_move(void);
void put_moves(uint32_t lines);

/* A section of the turn, whichever. */
uint32_t turn_section(void);

/* Takes a train of the turn, whichever, and gives its number, or says that it has none yet. */
bool turn_train(uint32_t *number);

#endif
