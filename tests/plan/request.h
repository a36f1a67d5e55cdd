/*
 * A request to the program `plan`, and the bench that it speaks of, put up on
 * the second opinion's own model.  Included by planner.c and replan.c.
 *
 * A request: setup 16 bytes, memory 4,096 bytes, slot one byte, image 512
 * bytes, then records of four bytes to the end, which are run first.
 */
#include "model.h"

enum { PAGES = SLOT_BYTES / PAGE, MOST_RECORDS = 811 };
enum { HEAD = SETUP + SLOTS * SLOT_BYTES + 1 + SLOT_BYTES };

struct request {
    const unsigned char *setup, *memory, *image, *records;
    int slot;
    size_t count;                 /* of the records that are run first */
};

/* Takes a request apart and puts its bench up, as it is when its records have
 * run.  Gives NULL, or what is to be said of a request that is none: R5 for a
 * bad setup whatever follows it, short for one that is cut. */
static const char *take(const unsigned char *in, size_t length, struct request *q)
{
    if (length < SETUP)
        return "short";
    if (!setup(in))
        return "R5";
    if (length < HEAD || (length - HEAD) % 4 != 0)
        return "short";
    q->setup = in;
    q->memory = in + SETUP;
    q->slot = in[SETUP + SLOTS * SLOT_BYTES];
    q->image = in + HEAD - SLOT_BYTES;
    q->records = in + HEAD;
    q->count = (length - HEAD) / 4;
    memcpy(memory, q->memory, sizeof memory);
    for (size_t i = 0; i < q->count; i++)
        play(q->records + 4 * i);
    return NULL;
}

/* "a slot absent or above 7" */
static int no_such_slot(int n) { return n >= SLOTS || bus[n].kind == ABSENT; }

/* Refusal 3: of an older module too (request P9). */
static int no_plan_for(int n) { return no_such_slot(n) || bus[n].kind == OLDER; }
