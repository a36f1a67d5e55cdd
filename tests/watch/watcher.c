/*
 * A plain watcher: what the program `watch` does, in C, on the second opinion's
 * model and the numbers that follow from it (numbers.h).  It stands in for the
 * proved program where its test is tried itself: tests/watch/planted plants the
 * faults of planted.txt in the two files, line by line (keep them in step), and
 * sees that tests/watch/random finds each.
 */
#include "numbers.h"

static size_t take(unsigned char *to, size_t many) { return fread(to, 1, many, stdin); }

static int last_line(const char *line)
{
    puts(line);
    return 0;
}

static void show_slot(int n, const long is[NUMBERS])
{
    printf("%d", n);
    for (int i = 0; i < NUMBERS; i++)
        if (has_number(is[AT_KIND], i))
            printf(" %s=%ld", name_of[i], is[i]);
    putchar('\n');
}

static long was[SLOTS][NUMBERS];  /* as they were shown; before that, none */

/* A line for each present slot whose numbers are not what they were. */
static void show_changes(void)
{
    for (int n = 0; n < SLOTS; n++) {
        long is[NUMBERS];

        if (bus[n].kind == ABSENT)
            continue;
        numbers_of(&bus[n], is);
        if (memcmp(is, was[n], sizeof is) == 0)
            continue;
        show_slot(n, is);
        memcpy(was[n], is, sizeof is);
    }
}

int main(void)
{
    unsigned char pairs[SETUP], record[4];
    size_t got;

    if (take(pairs, SETUP) < SETUP)
        return last_line("short");  /* of a setup */
    if (!setup(pairs))
        return last_line("R5");
    show_changes();               /* all that are there */
    fflush(stdout);               /* before a record is waited for */
    while ((got = take(record, 4)) == 4) {
        play(record);
        fwrite(out, 1, out_length, stdout);
        show_changes();           /* behind the script's line */
        fflush(stdout);           /* before the next is waited for */
    }
    if (got > 0)
        return last_line("short");  /* of a record */
    return 0;
}
