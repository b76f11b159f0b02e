/* The sheet that is being made, the writing of its text, and what is known of it. */
#ifndef PANEL_TEST_SHEET_H
#define PANEL_TEST_SHEET_H

#include <stdbool.h>
#include <stddef.h>
#include <stdint.h>

/* More than a pipe or a reader's block holds, so that far too large is tried too. */
#define SHEET_ROOM 70000

/* What is known of a sheet's first line, without asking the library. */
enum heading { HEADING_GOOD, HEADING_BAD, HEADING_OPEN };

struct sheet {
    uint8_t bytes[SHEET_ROOM];
    size_t length;
    size_t lines; /* once the sheet is finished */
    enum heading heading;
    const char *known_answer; /* NULL where only play knows it */
};

/* There is one at a time. Whoever makes a sheet changes it; all others only read it. */
extern struct sheet sheet;

/* Starts with the empty sheet, of which nothing is known. */
void start_sheet(void);

/* Counts the lines. */
void finish_sheet(void);

/* Whether the finished sheet is too large to be played. */
bool over_limit(void);

void put_byte(uint8_t byte);
void put_bytes(const char *bytes, size_t length);
void put_text(const char *text);

/* A space and the number. */
void put_field(uint32_t number);

/* Whole lines. N has a post where the other calls of a train have a section. */
void put_section_call(char letter, uint32_t section, bool up);
void put_train_call(char letter, uint32_t train, uint32_t section);
void put_withdrawal(uint32_t train);

void insert_byte(size_t at, uint8_t byte);
void remove_byte(size_t at);

/* Leaves the last line unfinished. */
void drop_line_feed(void);

#endif
