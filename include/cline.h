/* The collecting line for C: the nine calls over memory that the caller lends for the time of each call.
 *
 * Link with libcline.a (tools/c_example builds it at crates/cline/out). docs/RULES.md has the rules and the numbers of refusals.
 *
 *   board   any bytes; word k of the line lies little-endian at byte 8k. A line of n lanes with K cells takes 1 + 3n + nK words.
 *   trays   n + 1 + nK tickets. Tray n is the collector's hand: what was delivered last lies there.
 *   crew    what the line remembers. A crew of zeros, `cline_crew crew = {0};`, was never laid; only these calls change it.
 *
 * Nothing is kept between calls but what lies in these three. Give each call of a line the same board, trays and crew.
 */
#ifndef CLINE_H
#define CLINE_H

#include <stddef.h>
#include <stdint.h>

#ifdef __cplusplus
extern "C" {
#endif

/* A frame that lies elsewhere. */
typedef struct {
    uint32_t frame;
    uint32_t place;
    uint32_t length;
} cline_ticket;

/* One lane's part of a crew. */
typedef struct {
    uint8_t cells, tail, stage, attempt, head;
    uint64_t stamp, seen, grants;
} cline_crew_lane;

/* The collector's part of a crew. */
typedef struct {
    uint8_t stage, attempt, next, bound, kept_lane;
    uint64_t stamp, seen, fresh;
    size_t ended_lane;
    uint64_t ended_grants, grants;
} cline_crew_collector;

/* A crew. Its numbers are not meant to be read or written by hand. */
typedef struct {
    uint8_t lanes, cells, draining;
    uint8_t heads[16];
    cline_crew_lane rows[16];
    cline_crew_collector collector;
    uint64_t posted, delivered;
} cline_crew;

/* An answer: a number, and the values that come with it; those from `count` on are 0.
 *
 *   number 0     accepted. A grant whose operation goes on, and a call with nothing to tell, has no values.
 *                A post that ended as posted: stamp, grants. A collect that ended: as empty, grants; as delivered, lane,
 *                stamp, grants. A fill: frames. A report: posted, delivered.
 *   8 and 9      the post ended without posting, the lane being full or the stamps used up: grants.
 *   all others   a refusal: nothing has changed. 4 is also the answer to numbers that are no crew's; 16 to a call that is for
 *                an open crew and found a draining one, or the other way round.
 */
typedef struct {
    uint64_t number;
    uint64_t count;
    uint64_t values[3];
} cline_answer;

/* For an open crew. */
cline_answer cline_lay(cline_crew *crew, uint8_t *board, size_t board_bytes, const cline_ticket *trays, size_t tray_count,
                       size_t lanes, size_t cells, uint64_t start);
cline_answer cline_begin_post(cline_crew *crew, cline_ticket *trays, size_t tray_count, size_t lane,
                              const cline_ticket *ticket);
cline_answer cline_drain(cline_crew *crew);

/* For every crew. */
cline_answer cline_grant_lane(cline_crew *crew, uint8_t *board, size_t board_bytes, cline_ticket *trays, size_t tray_count,
                              size_t lane);
cline_answer cline_begin_collect(cline_crew *crew);
cline_answer cline_grant_collector(cline_crew *crew, uint8_t *board, size_t board_bytes, cline_ticket *trays,
                                   size_t tray_count);
cline_answer cline_settle(cline_crew *crew);
cline_answer cline_fill(const cline_crew *crew, size_t lane);

/* For a draining crew. */
cline_answer cline_report(const cline_crew *crew);

#ifdef __cplusplus
}
#endif

#endif
