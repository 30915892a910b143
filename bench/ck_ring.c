/* Tickets through Concurrency Kit's ring from one thread, for orientation beside the line.
 *
 * `ck_ring time LANES CYCLES`: each cycle enqueues a ticket for every lane, then dequeues as many. The calls are those
 * for many producers and one consumer. */
#include <ck_ring.h>
#include <inttypes.h>
#include <stdbool.h>
#include <stdint.h>
#include <stdio.h>
#include <stdlib.h>
#include <string.h>
#include <time.h>

enum { CELLS = 8, MOST_LANES = 16, FRAME_LENGTH = 4096 };

struct ticket {
    uint32_t frame, place, length;
};

CK_RING_PROTOTYPE(ticket, ticket)

static struct ticket cells[CELLS * MOST_LANES];

static uint64_t folded(uint64_t check, uint32_t word)
{
    return ((check << 5) | (check >> 59)) + word;
}

/* Makes the cycles, with a check over the tickets that came out; false if one could not be put in or taken out. */
static bool run(ck_ring_t *ring, uint32_t lanes, uint32_t cycles, uint64_t *check)
{
    struct ticket ticket;
    for (uint32_t cycle = 0; cycle < cycles; cycle++) {
        for (uint32_t lane = 0; lane < lanes; lane++) {
            ticket = (struct ticket){cycle, lane * FRAME_LENGTH, FRAME_LENGTH};
            if (!ck_ring_enqueue_mpsc_ticket(ring, cells, &ticket))
                return false;
        }
        for (uint32_t lane = 0; lane < lanes; lane++) {
            if (!ck_ring_dequeue_mpsc_ticket(ring, cells, &ticket))
                return false;
            *check = folded(folded(folded(*check, ticket.frame), ticket.place), ticket.length);
        }
    }
    return true;
}

static int64_t now(void)
{
    struct timespec time;
    clock_gettime(CLOCK_MONOTONIC, &time);
    return INT64_C(1000000000) * time.tv_sec + time.tv_nsec;
}

int main(int count, char **words)
{
    if (count != 4 || strcmp(words[1], "time") != 0)
        return EXIT_FAILURE;
    uint32_t lanes = strtoul(words[2], NULL, 10);
    uint32_t cycles = strtoul(words[3], NULL, 10);
    if (lanes < 1 || lanes > MOST_LANES || (lanes & (lanes - 1)) != 0)
        return EXIT_FAILURE; /* the ring's size is a power of two */
    ck_ring_t ring;
    ck_ring_init(&ring, CELLS * lanes);
    uint64_t check = 0;
    int64_t start = now();
    if (!run(&ring, lanes, cycles, &check))
        return EXIT_FAILURE;
    int64_t nanoseconds = now() - start;
    printf("lanes %" PRIu32 ", cycles %" PRIu32 ": check %" PRIu64 "\nnanoseconds %" PRId64 "\n", lanes, cycles, check,
           nanoseconds);
    return EXIT_SUCCESS;
}
