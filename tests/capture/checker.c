/*
 * A plain checker: what the program `capture` does, in C, on the second
 * opinion's model.  It stands in for the proved program where the tests of the
 * captures are tried themselves: tests/capture/planted plants the faults of
 * planted.txt in it, line by line (keep the two in step), and sees that
 * tests/capture/random finds each.  bench/capture measures the proved program
 * against it.
 */
#include "capture.h"
#include <unistd.h>

/* ---- The input, piece by piece ------------------------------------------- */

static unsigned char in[4096 * RECORD];
static size_t held;               /* bytes in it */

/* Reads on, behind what is held; 0 at the end of the input. */
static int read_on(void)
{
    long got = read(0, in + held, sizeof in - held);

    if (got <= 0)
        return 0;
    held += (size_t)got;
    return 1;
}

/* Reads until so many bytes are held; 0 if there are not so many. */
static int hold(size_t many)
{
    while (held < many)
        if (!read_on())
            return 0;
    return 1;
}

/* So many bytes are done with. */
static void drop(size_t many)
{
    held -= many;
    memmove(in, in + many, held);
}

/* ---- Answers ------------------------------------------------------------- */

static int agree(struct answer model, struct answer captured)
{
    if (model.code == REFUSED)
        return 0;                 /* whatever was captured */
    if (captured.code != model.code)
        return 0;
    return model.code != DATA || captured.byte == model.byte;
}

static void show(struct answer a)
{
    switch (a.code) {
    case NOTHING: printf(" -"); break;
    case ACK: printf(" A"); break;
    case NACK: printf(" N"); break;
    case DATA: printf(" D%02X", a.byte); break;
    case REFUSED: printf(" R%d", a.byte); break;
    default: printf(" ?"); break;
    }
}

static int alone(const char *line, int status)
{
    puts(line);
    return status;
}

static int difference(unsigned long number, struct answer model, struct answer captured)
{
    printf("%lu", number);
    show(model);
    show(captured);
    return alone("", 1);          /* ends the line */
}

int main(void)
{
    unsigned long number = 0;     /* of the record in hand */

    if (!hold(SETUP))
        return alone("short", 2);
    if (!setup(in))
        return alone("R5", 2);
    if (!hold(HEAD))
        return alone("short", 2); /* inside the memory */
    memcpy(memory, in + SETUP, sizeof memory);
    drop(HEAD);
    do {
        size_t at = 0;

        for (; at + RECORD <= held; at += RECORD, number++) {
            struct answer model = answered(in + at);
            struct answer captured = { in[at + 4], in[at + 5] };

            if (!agree(model, captured))
                return difference(number, model, captured);
        }
        drop(at);
    } while (read_on());
    if (held > 0)
        return alone("short", 2); /* inside a record */
    return alone("OK", 0);
}
