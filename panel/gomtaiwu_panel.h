/* The library seen from C: one function that plays a turn sheet of a railway. */
#ifndef GOMTAIWU_PANEL_H
#define GOMTAIWU_PANEL_H

#include <stddef.h>
#include <stdint.h>

#ifdef __cplusplus
extern "C" {
#endif

/* The largest sheet that is played. */
#define GOMTAIWU_SHEET_MOST_BYTES 16000
#define GOMTAIWU_SHEET_MOST_LINES 1500

/*
 * The room that an answer needs: so much for each line of the sheet, and the
 * rest once. A line feed ends a line, an unfinished last line counts as a
 * line, and the empty sheet has no line.
 */
#define GOMTAIWU_ANSWER_LINE_BYTES 20
#define GOMTAIWU_ANSWER_REST_BYTES 600

/* The least buffer for a sheet of so many lines. */
#define GOMTAIWU_ANSWER_LEAST(lines) \
    ((size_t)GOMTAIWU_ANSWER_LINE_BYTES * (size_t)(lines) + (size_t)GOMTAIWU_ANSWER_REST_BYTES)

/* A buffer of this size is enough for every sheet that is played. */
#define GOMTAIWU_ANSWER_MOST GOMTAIWU_ANSWER_LEAST(GOMTAIWU_SHEET_MOST_LINES)

/* The refusals of a whole sheet, in the order in which they are looked for. */
#define GOMTAIWU_REFUSED_SIZE 101    /* the sheet has too many bytes or lines */
#define GOMTAIWU_REFUSED_ROOM 106    /* the answer buffer is below the least for the sheet */
#define GOMTAIWU_REFUSED_HEADING 102 /* the first line is no good heading */

/*
 * Plays the sheet and writes the answer to the start of the answer buffer.
 *
 * The caller owes:
 *   - neither pointer is NULL, not even where its length is 0;
 *   - `sheet` points to `sheet_len` bytes that can be read and that nobody
 *     changes during the call;
 *   - `answer` points to `answer_len` bytes that can be written and that nobody
 *     else uses during the call;
 *   - the two ranges do not overlap.
 * Any bytes may stand in the sheet, and both lengths may be 0. The buffer need
 * not be cleared: what it held has no part in the answer.
 *
 * It answers:
 *   - 0 or more: the sheet was played, and that many bytes, never more than
 *     `answer_len`, were written from the start of the buffer, with no zero
 *     byte put after them;
 *   - below 0: minus the number of the refusal of the whole sheet, that is
 *     minus one of GOMTAIWU_REFUSED_*.
 *
 * It leaves untouched: the sheet; every byte of the buffer past those written;
 * and, where the sheet is refused whole, the whole buffer.
 *
 * It keeps no state and allocates nothing: the same sheet has the same answer
 * in every buffer that is large enough, and threads may call it at one time
 * with buffers of their own.
 */
int32_t gomtaiwu_play_sheet(const uint8_t *sheet, size_t sheet_len,
                            uint8_t *answer, size_t answer_len);

#ifdef __cplusplus
}
#endif

#endif
