#include "sheet.h"

#include <assert.h>
#include <inttypes.h>
#include <stdio.h>
#include <string.h>

#include "gomtaiwu_panel.h"

#define FIELD_ROOM 16

struct sheet sheet;

static bool ends_in_line_feed(void)
{
    return sheet.length > 0 && sheet.bytes[sheet.length - 1] == '\n';
}

void start_sheet(void)
{
    sheet.length = 0;
    sheet.lines = 0;
    sheet.heading = HEADING_OPEN;
    sheet.known_answer = NULL;
}

void finish_sheet(void)
{
    sheet.lines = 0;
    for (size_t i = 0; i < sheet.length; i++)
        sheet.lines += sheet.bytes[i] == '\n';
    if (sheet.length > 0 && !ends_in_line_feed())
        sheet.lines++;
}

bool over_limit(void)
{
    return sheet.length > GOMTAIWU_SHEET_MOST_BYTES || sheet.lines > GOMTAIWU_SHEET_MOST_LINES;
}

void put_byte(uint8_t byte)
{
    assert(sheet.length < SHEET_ROOM);
    sheet.bytes[sheet.length++] = byte;
}

void put_bytes(const char *bytes, size_t length)
{
    for (size_t i = 0; i < length; i++)
        put_byte((uint8_t)bytes[i]);
}

void put_text(const char *text)
{
    put_bytes(text, strlen(text));
}

void put_field(uint32_t number)
{
    char text[FIELD_ROOM];

    snprintf(text, sizeof text, " %" PRIu32, number);
    put_text(text);
}

void put_section_call(char letter, uint32_t section, bool up)
{
    put_byte((uint8_t)letter);
    put_field(section);
    put_text(up ? " u\n" : " d\n");
}

void put_train_call(char letter, uint32_t train, uint32_t section)
{
    put_byte((uint8_t)letter);
    put_field(train);
    put_field(section);
    put_byte('\n');
}

void put_withdrawal(uint32_t train)
{
    put_byte('W');
    put_field(train);
    put_byte('\n');
}

void insert_byte(size_t at, uint8_t byte)
{
    put_byte(0);
    memmove(sheet.bytes + at + 1, sheet.bytes + at, sheet.length - at - 1);
    sheet.bytes[at] = byte;
}

void remove_byte(size_t at)
{
    memmove(sheet.bytes + at, sheet.bytes + at + 1, sheet.length - at - 1);
    sheet.length--;
}

void drop_line_feed(void)
{
    if (ends_in_line_feed())
        sheet.length--;
}
