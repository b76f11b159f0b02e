/* For MAP_ANONYMOUS, beside what POSIX has. */
#define _DEFAULT_SOURCE

#include "guarded.h"

#include <string.h>
#include <sys/mman.h>
#include <unistd.h>

#include "report.h"

static void protect(const struct arena *arena, int protection)
{
    if (mprotect(arena->start, (size_t)(arena->end - arena->start), protection) != 0)
        die("mprotect");
}

struct arena make_arena(size_t room)
{
    struct arena arena;
    size_t page = (size_t)sysconf(_SC_PAGESIZE);
    size_t size = (room + page - 1) / page * page;
    uint8_t *all = mmap(NULL, size + 2 * page, PROT_NONE, MAP_PRIVATE | MAP_ANONYMOUS, -1, 0);

    if (all == MAP_FAILED)
        die("mmap");
    arena.start = all + page;
    arena.end = arena.start + size;
    protect(&arena, PROT_READ | PROT_WRITE);
    return arena;
}

uint8_t *against_guard(const struct arena *arena, enum side side, size_t length)
{
    return side == GUARD_AFTER ? arena->end - length : arena->start;
}

const uint8_t *guarded_copy(const struct arena *arena, enum side side, const uint8_t *bytes,
                            size_t length)
{
    uint8_t *copy = against_guard(arena, side, length);

    protect(arena, PROT_READ | PROT_WRITE);
    memcpy(copy, bytes, length);
    protect(arena, PROT_READ);
    return copy;
}
