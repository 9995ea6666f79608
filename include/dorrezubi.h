/* Dorrezubi: rehearsals of plan files. docs/PLAN_FILE.md has the form of plans and listings. */
#ifndef DORREZUBI_H
#define DORREZUBI_H

#include <stddef.h>
#include <stdint.h>

#ifdef __cplusplus
extern "C" {
#endif

/* Enough bytes for the listing of every plan. A shorter slice will do where the listing fits. */
#define DORREZUBI_LISTING_MAX 35194

/* What dorrezubi_run_plan returns. */
#define DORREZUBI_LISTED 0     /* the listing was written, zeros behind it */
#define DORREZUBI_MALFORMED 37 /* file too short, bytes left over or a set padding bit; nothing written */
#define DORREZUBI_TOO_LARGE 38 /* file above 16,384 bytes; nothing written */
#define DORREZUBI_TOO_LONG 39  /* floor(horizon / lookahead) above 65,536, or a listing longer than the slice; all zeros written.
                                  The lookahead is the least that an edge carries, or the plan's if there is no edge */

/* Rehearses the plan in plan[0 .. plan_length) and writes its listing to listing[0 .. listing_length).
 *
 * Any bytes and any lengths are allowed; a length may be 0. Neither pointer may be null, and the two ranges must not overlap.
 * Only 0, 37, 38 and 39 are returned; a plan that is refused for what it says (by its build, an initial event or its run) is
 * listed, and its number stands in the listing's last line:
 *
 *     end NUMBER GVT ROUNDS NULL-MESSAGES
 *
 * The listing is text without a zero byte: in a slice of DORREZUBI_LISTING_MAX + 1 bytes it is a C string.
 *
 * No state is kept between calls: it may be called from several threads at once, each with a listing of its own.
 * It needs 192 KB of stack (164,472 bytes were measured). */
uint64_t dorrezubi_run_plan(const uint8_t *plan, size_t plan_length, uint8_t *listing, size_t listing_length);

/* NUMBER in the last line. 0: the rehearsal came to its horizon. Numbers that no plan file brings (3, 4, 6, 11 to 13, 19 to 21,
 * 23, 25, 27, 33) are left out. */
#define DORREZUBI_END_FINISHED 0
/* Nothing was built, the listing is this line alone: */
#define DORREZUBI_END_PROCESS_COUNT 1             /* process count 0 or above 64 */
#define DORREZUBI_END_LOOKAHEAD 2                 /* the plan's lookahead is 0 */
#define DORREZUBI_END_EDGES 5                     /* edges not by rising source, or over 512 edges */
#define DORREZUBI_END_UNKNOWN_SOURCE 7            /* an edge's source is unknown */
#define DORREZUBI_END_UNKNOWN_DESTINATION 8       /* an edge's destination is unknown */
#define DORREZUBI_END_SELF_LOOP 9                 /* an edge's destination is its source */
#define DORREZUBI_END_EDGE_TWICE 10               /* an edge stands there twice */
#define DORREZUBI_END_EDGE_LOOKAHEAD 40           /* an edge's lookahead is 0 */
/* An initial event was refused, or the horizon; nothing was run: */
#define DORREZUBI_END_INITIAL_SOURCE 14           /* initial source unknown */
#define DORREZUBI_END_INITIAL_DESTINATION 15      /* initial destination unknown */
#define DORREZUBI_END_INITIAL_ROUTE 16            /* no route: no edge leads from its source to its destination */
#define DORREZUBI_END_INITIAL_PAYLOAD 17          /* payload above 16 bytes */
#define DORREZUBI_END_QUEUE_FULL 18               /* over 512 pending; of an initial event, or in the run */
#define DORREZUBI_END_HORIZON 22                  /* horizon is 2^128 - 1 */
/* The run ended early: */
#define DORREZUBI_END_BUDGET 24                   /* budget spent, an event eligible; all that was handled is listed */
/* Its last batch was lost, and is not listed: */
#define DORREZUBI_END_REPLY_PAYLOAD 26            /* malformed reply: a payload above 16 bytes */
#define DORREZUBI_END_EMISSION_SOURCE 28          /* emission's source is not its emitter */
#define DORREZUBI_END_EMISSION_DESTINATION 29     /* emission to an unknown process */
#define DORREZUBI_END_EMISSION_ROUTE 30           /* emission without a route */
#define DORREZUBI_END_LOOKAHEAD_OVERFLOW 31       /* event tick + the edge's lookahead above 2^128 - 1 */
#define DORREZUBI_END_EMISSION_EARLY 32           /* emission below its minimum: inside the edge's lookahead, or before its event */

#ifdef __cplusplus
}
#endif

#endif
