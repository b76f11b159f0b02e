#include "buffer.h"

#include "report.h"

/* The golden ratio as a 32-bit fraction spreads the pattern over all bytes. */
#define PATTERN_STEP UINT32_C(0x9e3779b9)
#define PATTERN_SHIFT 24

static uint8_t pattern(const struct buffer *buffer, const uint8_t *at)
{
    uint32_t distance = (uint32_t)(at - buffer->bytes);

    return (uint8_t)((buffer->salt + distance * PATTERN_STEP) >> PATTERN_SHIFT) ^ buffer->flip;
}

/* Where the guard page is on one side of the buffer, a margin is watched on the other. */
static void watch(struct buffer *buffer, enum side side)
{
    buffer->watched_start = buffer->bytes;
    buffer->watched_end = buffer->bytes + buffer->length;
    if (side == GUARD_AFTER)
        buffer->watched_start -= MARGIN;
    else
        buffer->watched_end += MARGIN;
    for (uint8_t *at = buffer->watched_start; at < buffer->watched_end; at++)
        *at = pattern(buffer, at);
}

struct buffer lay_buffer(const struct arena *arena, enum side side, size_t length, uint32_t salt)
{
    struct buffer buffer;

    buffer.bytes = against_guard(arena, side, length);
    buffer.length = length;
    buffer.salt = salt;
    buffer.flip = side == GUARD_AFTER ? 0 : UINT8_MAX;
    watch(&buffer, side);
    return buffer;
}

static void check_range(const struct buffer *buffer, const uint8_t *from, const uint8_t *to)
{
    for (const uint8_t *at = from; at < to; at++)
        if (*at != pattern(buffer, at))
            differ("a buffer of %zu: the byte at %td was changed to 0x%02x", buffer->length,
                   at - buffer->bytes, (unsigned)*at);
}

void check_untouched(const struct buffer *buffer, size_t written)
{
    check_range(buffer, buffer->watched_start, buffer->bytes);
    check_range(buffer, buffer->bytes + written, buffer->watched_end);
}
