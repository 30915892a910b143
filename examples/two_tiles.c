/* Two tiles post tickets over one line, and the collector takes them out. What must be printed stands in two_tiles.stdout and
 * follows from docs/RULES.md: nothing disturbs a post here, so each ends with grant 9; the first collect scans two slots, looks at
 * slot 0 once more, since it kept lane 1, and delivers with five grants: 8. The second keeps lane 0: 7. */
#include "cline.h"

#include <inttypes.h>
#include <stdio.h>
#include <string.h>

enum { LANES = 2, CELLS = 2, WORDS = 1 + 3 * LANES + LANES * CELLS, TRAYS = LANES + 1 + LANES * CELLS };

/* The line's memory, with bytes behind it that nobody may touch. */
typedef struct {
    uint8_t board[8 * WORDS + 3];
    cline_ticket trays[TRAYS];
    cline_crew crew;
    uint8_t guard[16];
} line;

static void show(const char *what, cline_answer answer) {
    printf("%s: %" PRIu64, what, answer.number);
    for (uint64_t i = 0; i < answer.count && i < 3; i++)
        printf(" %" PRIu64, answer.values[i]);
    printf("\n");
}

static cline_answer grant_lane(line *l, size_t lane) {
    return cline_grant_lane(&l->crew, l->board, sizeof l->board, l->trays, TRAYS, lane);
}

/* Grants a lane until its post has ended. */
static cline_answer post_to_end(line *l, size_t lane) {
    cline_answer answer;
    do
        answer = grant_lane(l, lane);
    while (answer.number == 0 && answer.count == 0);
    return answer;
}

/* Begins a collect, grants it to its end and settles it. */
static cline_answer collect(line *l) {
    cline_answer answer = cline_begin_collect(&l->crew);
    if (answer.number != 0)
        return answer;
    do
        answer = cline_grant_collector(&l->crew, l->board, sizeof l->board, l->trays, TRAYS);
    while (answer.number == 0 && answer.count == 0);
    return cline_settle(&l->crew);
}

static void show_hand(const line *l) {
    cline_ticket hand = l->trays[LANES];
    printf("in the hand: frame %" PRIu32 ", place %" PRIu32 ", length %" PRIu32 "\n", hand.frame, hand.place, hand.length);
}

int main(void) {
    line l;
    memset(&l, 0xa5, sizeof l);
    show("a crew that is not zeroed", cline_fill(&l.crew, 0));
    memset(&l.crew, 0, sizeof l.crew);
    show("a crew never laid", cline_fill(&l.crew, 0));
    show("too few words", cline_lay(&l.crew, l.board, 8 * (WORDS - 1), l.trays, TRAYS, LANES, CELLS, 100));
    show("lay", cline_lay(&l.crew, l.board, sizeof l.board, l.trays, TRAYS, LANES, CELLS, 100));

    cline_ticket first = {1, 10, 512}, second = {2, 522, 256};
    show("begin post on lane 1", cline_begin_post(&l.crew, l.trays, TRAYS, 1, &first));
    show("begin it again", cline_begin_post(&l.crew, l.trays, TRAYS, 1, &first));
    show("post of lane 1", post_to_end(&l, 1));
    show("begin post on lane 0", cline_begin_post(&l.crew, l.trays, TRAYS, 0, &second));
    show("post of lane 0", post_to_end(&l, 0));
    show("begin post on lane 0", cline_begin_post(&l.crew, l.trays, TRAYS, 0, &first));
    show("post of lane 0", post_to_end(&l, 0));
    show("fill of lane 0", cline_fill(&l.crew, 0));

    show("report of an open crew", cline_report(&l.crew));
    show("drain", cline_drain(&l.crew));
    show("drain again", cline_drain(&l.crew));
    show("begin post while draining", cline_begin_post(&l.crew, l.trays, TRAYS, 0, &first));
    show("report too early", cline_report(&l.crew));
    show("settle without a collect", cline_settle(&l.crew));
    show("collect", collect(&l));
    show_hand(&l);
    show("collect", collect(&l));
    show_hand(&l);
    show("collect", collect(&l));
    show("report", cline_report(&l.crew));

    int touched = 0;
    for (size_t i = 0; i < sizeof l.guard; i++)
        touched += l.guard[i] != 0xa5;
    for (size_t i = 8 * WORDS; i < sizeof l.board; i++)
        touched += l.board[i] != 0xa5;
    printf("bytes touched that are not the line's: %d\n", touched);
    return 0;
}
