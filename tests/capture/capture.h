/*
 * A capture, as the program `capture` takes it, over the second opinion's own
 * model.  Included by checker.c and recapture.c.
 *
 * A capture: setup 16 bytes, memory 4,096 bytes, then records of six bytes to
 * the end: the four of a script's record, the captured answer's code, its byte.
 */
#include "model.h"

enum { HEAD = SETUP + SLOTS * SLOT_BYTES, RECORD = 6 };
enum { NOTHING, ACK, NACK, DATA, REFUSED };  /* the codes */

struct answer {
    int code;
    int byte;                     /* of data; of a refusal its number */
};

static int digit(char c) { return c <= '9' ? c - '0' : c - 'A' + 10; }

/* What the model answers to a record. */
static struct answer answered(const unsigned char *record)
{
    const char *line = play(record);
    struct answer a = { NOTHING, 0 };

    switch (line[0]) {
    case 'A': a.code = ACK; break;
    case 'N': a.code = NACK; break;
    case 'D': a.code = DATA; a.byte = 16 * digit(line[1]) + digit(line[2]); break;
    case 'R': a.code = REFUSED; a.byte = digit(line[1]); break;
    }
    return a;
}
