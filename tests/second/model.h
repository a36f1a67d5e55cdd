/*
 * The second opinion's model for other programs: second.c without its main,
 * and one record at a time.  Included by request.h, capture.h, forms.h,
 * giver.c, relist.c and tests/watch/numbers.h.
 */
#define main script_main
#include "second.c"
#undef main
#include <stdlib.h>

enum { START = 1, BYTE = 2, READ = 3, STOP = 4, TIMEOUT = 5, TICK = 6, VOLTAGE = 7, POWER = 8, TEMPERATURE = 9, WRITE_PROTECT = 10 };
enum { SETUP = 2 * SLOTS };       /* bytes of it */

/* One record on the model.  Gives its line, as the script program says it. */
static const char *play(const unsigned char record[4])
{
    int value = 256 * record[2] + record[3];

    out_length = 0;               /* the line before is not wanted any more */
    event(record[0], record[1], value >= 32768 ? value - 65536 : value);
    return (const char *)out;
}
