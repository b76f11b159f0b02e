/* The answer buffer of one call, filled with a pattern that shows every byte that was changed. */
#ifndef PANEL_TEST_BUFFER_H
#define PANEL_TEST_BUFFER_H

#include <stddef.h>
#include <stdint.h>

#include "guarded.h"

/* So many bytes beside the buffer, on the side with no guard page, are watched too. */
#define MARGIN 1024

struct buffer {
    uint8_t *bytes;
    size_t length;
    uint8_t *watched_start;
    uint8_t *watched_end;
    uint32_t salt;
    uint8_t flip;
};

/*
 * A buffer of that length, right at the guard page of that side. The pattern of
 * one side is the complement of the other's: whatever a stray write leaves
 * behind, it differs from one of them.
 */
struct buffer lay_buffer(const struct arena *arena, enum side side, size_t length, uint32_t salt);

/* Only so many bytes from the start of the buffer may have changed. */
void check_untouched(const struct buffer *buffer, size_t written);

#endif
