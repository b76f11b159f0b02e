/* The program play: runs it with the sheet, and checks what it says against what is known. */
#ifndef PANEL_TEST_PLAY_H
#define PANEL_TEST_PLAY_H

#include <stddef.h>
#include <stdint.h>

#include "gomtaiwu_panel.h"

/* One byte more than play may answer shows that it answered too much. */
#define REPLY_ROOM (GOMTAIWU_ANSWER_MOST + 1)

/* What play printed, and the number of its refusal, or 0 where it answered. */
struct reply {
    uint8_t bytes[REPLY_ROOM];
    size_t length;
    int32_t refusal;
};

/* The reply to the sheet; the next sheet overwrites it. */
const struct reply *ask_play(const char *program);

/* How many calls were ok, so that it can be seen whether the turns really move trains. */
unsigned long count_ok(const struct reply *reply);

#endif
