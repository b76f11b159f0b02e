#include "compare.h"

#include <inttypes.h>
#include <string.h>

#include "buffer.h"
#include "chance.h"
#include "gomtaiwu_panel.h"
#include "guarded.h"
#include "report.h"
#include "sheet.h"

/* A larger buffer is larger by at most this. */
#define LARGER_MOST 4096
/* A sheet of too many lines is refused whatever the buffer, so no more lines need room. */
#define ROOM_LINES (GOMTAIWU_SHEET_MOST_LINES + 1)
#define ANSWER_ROOM (GOMTAIWU_ANSWER_LEAST(ROOM_LINES) + LARGER_MOST)

/* The lengths of the answer buffer that each sheet is tried with. */
enum size { SIZE_LEAST, SIZE_ONE_LESS, SIZE_NONE, SIZE_LARGER, SIZES };

static const char *const side_names[SIDES] = {"guard page after", "guard page before"};
static const char *const size_names[SIZES] = {"least buffer", "one byte less", "no buffer",
                                              "larger buffer"};

static struct arena sheet_arena;
static struct arena answer_arena;
static unsigned long calls;

void prepare_compare(void)
{
    sheet_arena = make_arena(SHEET_ROOM);
    answer_arena = make_arena(ANSWER_ROOM + MARGIN);
}

static void check_answer(const struct buffer *buffer, const struct reply *reply)
{
    for (size_t i = 0; i < reply->length; i++)
        if (buffer->bytes[i] != reply->bytes[i])
            differ("the byte at %zu is 0x%02x, and play has 0x%02x", i,
                   (unsigned)buffer->bytes[i], (unsigned)reply->bytes[i]);
}

static int32_t expected_result(const struct reply *reply, size_t answer_length)
{
    if (over_limit())
        return -GOMTAIWU_REFUSED_SIZE;
    if (answer_length < GOMTAIWU_ANSWER_LEAST(sheet.lines))
        return -GOMTAIWU_REFUSED_ROOM;
    return reply->refusal != 0 ? -reply->refusal : (int32_t)reply->length;
}

static void compare_call(const uint8_t *copy, const struct buffer *buffer,
                         const struct reply *reply)
{
    int32_t expected = expected_result(reply, buffer->length);
    int32_t result = gomtaiwu_play_sheet(copy, sheet.length, buffer->bytes, buffer->length);

    if (result != expected)
        differ("%zu lines, a buffer of %zu: the result is %" PRId32 ", not %" PRId32, sheet.lines,
               buffer->length, result, expected);
    if (result >= 0)
        check_answer(buffer, reply);
    check_untouched(buffer, result > 0 ? (size_t)result : 0);
    if (memcmp(copy, sheet.bytes, sheet.length) != 0)
        differ("the sheet was changed");
    calls++;
}

static void choose_sizes(size_t sizes[SIZES])
{
    size_t least = GOMTAIWU_ANSWER_LEAST(sheet.lines < ROOM_LINES ? sheet.lines : ROOM_LINES);

    sizes[SIZE_LEAST] = least;
    sizes[SIZE_ONE_LESS] = least - 1;
    sizes[SIZE_NONE] = 0;
    sizes[SIZE_LARGER] = least + 1 + below(LARGER_MOST);
}

static void compare_side(enum side side, const size_t sizes[SIZES], uint32_t salt,
                         const struct reply *reply)
{
    const uint8_t *copy = guarded_copy(&sheet_arena, side, sheet.bytes, sheet.length);

    for (int size = 0; size < SIZES; size++) {
        struct buffer buffer;

        now_doing("function: %s, %s", size_names[size], side_names[side]);
        buffer = lay_buffer(&answer_arena, side, sizes[size], salt + (uint32_t)size);
        compare_call(copy, &buffer, reply);
    }
}

void compare_sheet(const struct reply *reply)
{
    size_t sizes[SIZES];
    uint32_t salt;

    choose_sizes(sizes);
    salt = (uint32_t)chance();
    compare_side(GUARD_AFTER, sizes, salt, reply);
    compare_side(GUARD_BEFORE, sizes, salt, reply);
}

unsigned long calls_compared(void)
{
    return calls;
}
