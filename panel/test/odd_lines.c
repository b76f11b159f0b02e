#include "odd_lines.h"

#include <stdbool.h>
#include <stddef.h>
#include <string.h>

#include "chance.h"
#include "count.h"
#include "sheet.h"
#include "turns.h"

/* Past the sections of every turn, but not so far that most are. */
#define ANY_SECTIONS 18
#define FIVE_DIGITS 100000
/* How often a random call has what the turn does not know. */
#define ONE_IN_NO_SECTION 10
#define ONE_IN_FAR_SECTION 4
#define ONE_IN_OTHER_TRAIN 4

enum damage { REPLACE_BYTE, INSERT_BYTE, DOUBLE_BYTE, REMOVE_BYTE, CUT_SHORT, DAMAGES };

static uint32_t any_number(void)
{
    static const uint32_t edges[] = {0, 1, 9, 10, 15, 16, 17, 32767, 32768,
                                     65535, 65536, 99999, 100000};

    return coin() ? edges[below(COUNT(edges))] : below(FIVE_DIGITS);
}

static uint32_t any_section(void)
{
    if (one_in(ONE_IN_NO_SECTION))
        return any_number();
    return one_in(ONE_IN_FAR_SECTION) ? below(ANY_SECTIONS) : turn_section();
}

static uint32_t any_train(void)
{
    uint32_t number;

    return turn_train(&number) && !one_in(ONE_IN_OTHER_TRAIN) ? number : any_number();
}

uint8_t any_byte(void)
{
    static const uint8_t edges[] = {0,    ' ', '0', '9', '-', '\t', '\n',
                                    '\r', 'I', 'u', 127, 128, 255};

    return coin() ? edges[below(COUNT(edges))] : chance_byte();
}

/* In the next two, one argument is taken before the other, since C leaves their order open. */
static void put_any_train_call(char letter)
{
    uint32_t section = any_section();

    put_train_call(letter, any_train(), section);
}

static void put_any_section_call(char letter)
{
    bool up = coin();

    put_section_call(letter, any_section(), up);
}

void put_any_call(void)
{
    static const char letters[] = "NWGOFRHSDUZETL";
    char letter = letters[below(sizeof letters - 1)];

    if (letter == 'W')
        put_withdrawal(any_train());
    else if (strchr("NETL", letter) != NULL)
        put_any_train_call(letter);
    else
        put_any_section_call(letter);
}

/* Damages the last line, which begins at `start` and has at least one byte and its line feed. */
static void damage_line(size_t start)
{
    size_t at = start + below((uint32_t)(sheet.length - start - 1));

    switch ((enum damage)below(DAMAGES)) {
    case REPLACE_BYTE:
        sheet.bytes[at] = any_byte();
        break;
    case INSERT_BYTE:
        insert_byte(at, any_byte());
        break;
    case DOUBLE_BYTE: /* so that a space or a digit stands twice */
        insert_byte(at, sheet.bytes[at]);
        break;
    case REMOVE_BYTE:
        remove_byte(at);
        break;
    default: /* CUT_SHORT, perhaps to nothing */
        sheet.length = at;
        put_byte('\n');
        break;
    }
}

void put_damaged_line(void)
{
    size_t start = sheet.length;

    put_any_call();
    damage_line(start);
}
