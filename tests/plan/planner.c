/*
 * A plain planner: what the program `plan` does, in C, written from the
 * sentences of requests P1 and P9 on the second opinion's model.  It stands in for the
 * proved program where the tests of the planner are tried themselves:
 * tests/plan/planted plants the faults of planted.txt in it, line by line (keep
 * the two in step), and sees that tests/plan/random finds each.
 */
#include "request.h"
#include "files.h"

static unsigned char plan[2 * MOST_RECORDS][4];  /* room for wrong plans too */
static int planned;

static void put(int kind, int value)
{
    unsigned char *record = plan[planned++];

    record[0] = (unsigned char)kind;
    record[1] = 0;                /* every empty cell is 0 */
    record[2] = 0;
    record[3] = (unsigned char)value;
}

static void select_standing(int half)
{
    put(START, 0);
    put(BYTE, half ? 0x6E : 0x6C);
    put(STOP, 0);
}

static void write_page(int slot, int page, const unsigned char *image)
{
    put(START, 0);
    put(BYTE, 0xA0 + 2 * slot);
    put(BYTE, page % 16 * PAGE);
    for (int i = 0; i < PAGE; i++)
        put(BYTE, image[PAGE * page + i]);
    put(STOP, 0);                 /* begins the cycle */
    for (int i = 0; i < bus[slot].length; i++)
        put(TICK, 0);
}

static int alone(const char *line, int status)
{
    puts(line);
    return status;
}

int main(void)
{
    struct request q;
    size_t length;
    unsigned char *in = whole(stdin, &length);
    const char *none = take(in, length, &q);
    const unsigned char *old;
    const struct slot *s;
    int half;

    if (none != NULL)
        return alone(none, 2);
    if (no_plan_for(q.slot))
        return alone("R3", 1);
    old = memory + SLOT_BYTES * q.slot;
    s = &bus[q.slot];
    for (int i = 0; i < 5; i++) { /* "Five ticks come first" */
        put(TICK, 0);
        play(plan[i]);
    }
    half = s->half;
    for (int page = 0; page < PAGES; page++) {
        if (memcmp(old + PAGE * page, q.image + PAGE * page, PAGE) == 0)
            continue;
        if (s->is_protected[page / 8])
            return alone("R7", 1);
        if (page / 16 != half)
            select_standing(half = page / 16);
        write_page(q.slot, page, q.image);
    }
    printf("%d\n", planned);
    for (int i = 0; i < planned; i++)
        printf("%02X%02X%02X%02X\n", plan[i][0], plan[i][1], plan[i][2], plan[i][3]);
    return 0;
}
