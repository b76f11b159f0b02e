/*
 * Memory with a page on each side that nobody may touch: the library is not
 * built with the sanitizers, so this is what sees it leave its bytes.
 */
#ifndef PANEL_TEST_GUARDED_H
#define PANEL_TEST_GUARDED_H

#include <stddef.h>
#include <stdint.h>

struct arena {
    uint8_t *start;
    uint8_t *end;
};

/* On which side of the bytes the guard page lies. */
enum side { GUARD_AFTER, GUARD_BEFORE, SIDES };

/* An arena of at least that room. */
struct arena make_arena(size_t room);

/* So many bytes of the arena, right at the guard page of that side. */
uint8_t *against_guard(const struct arena *arena, enum side side, size_t length);

/* A copy of the bytes that lies so, in memory that can only be read. */
const uint8_t *guarded_copy(const struct arena *arena, enum side side, const uint8_t *bytes,
                            size_t length);

#endif
