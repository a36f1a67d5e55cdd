/*
 * A plain keeper of benches: what the programs `save` and `resume` do, in C, on
 * the second opinion's model (forms.h).  It stands in for the proved programs
 * where the tests of saved forms are tried themselves: tests/save/planted plants
 * the faults of planted.txt in it and in forms.h, line by line (keep them in
 * step), and sees that tests/save/random finds each.
 *
 *   keeper save     a script on standard input; the form on standard output
 *   keeper resume   a form with its length in front, then records; their lines
 *   keeper laps     a line `s COUNT`, `r COUNT` or `c COUNT`: saves, restores or
 *                   copies a full bench so many times (bench/save); then `done`
 */
#include "forms.h"

enum { LONGEST = 65535 };         /* announced length of a form */

static size_t take(unsigned char *to, size_t many) { return fread(to, 1, many, stdin); }

/* ---- save ------------------------------------------------------------------ */

static int refuse(const char *line, int status)
{
    fprintf(stderr, "%s\n", line);
    return status;
}

static int save(void)
{
    unsigned char pairs[SETUP], record[4];
    size_t got;

    if (take(pairs, SETUP) < SETUP)
        return refuse("short", 2);
    if (!setup(pairs))
        return refuse("R5", 2);
    while ((got = take(record, 4)) == 4)
        play(record);
    if (got > 0)                  /* a record of the script is cut */
        return refuse("short", 2);
    if (!quiet())
        return refuse("R8", 1);
    write_form();
    fwrite(form, 1, form_length, stdout);
    return 0;
}

/* ---- resume ---------------------------------------------------------------- */

static int last_line(const char *line, int status)
{
    puts(line);
    return status;
}

static int resume(void)
{
    static unsigned char bytes[LONGEST];
    unsigned char head[4], record[4];
    unsigned long length;
    size_t got;

    if (take(head, 4) < 4)
        return last_line("short", 2);
    length = 65536UL * word_at(head) + word_at(head + 2);
    if (length > LONGEST)
        return last_line("R10", 1);
    if (take(bytes, length) < length)
        return last_line("short", 2);
    memset(memory, 0xFF, sizeof memory);
    if (!read_form(bytes, length))
        return last_line("R10", 1);
    while ((got = take(record, 4)) == 4) {
        play(record);
        fwrite(out, 1, out_length, stdout);
        fflush(stdout);           /* before it waits for more */
    }
    if (got > 0)                  /* a record behind the form is cut */
        return last_line("short", 2);
    return 0;
}

/* ---- laps ------------------------------------------------------------------ */

/* Eight sensors, and a memory of all bytes. */
static void fill_bench(void)
{
    unsigned char pairs[SETUP];

    for (int n = 0; n < SLOTS; n++) {
        pairs[2 * n] = MEMORY_WITH_SENSOR;
        pairs[2 * n + 1] = 5;
    }
    setup(pairs);
    for (int i = 0; i < (int)sizeof memory; i++)
        memory[i] = (unsigned char)(i * 7);
    write_form();
}

static int laps(void)
{
    static unsigned char copy[MOST];
    void *(*volatile copies)(void *, const void *, size_t) = memcpy;  /* not left out */
    char line[40] = "";
    long count;

    take((unsigned char *)line, sizeof line - 1);
    count = atol(line + 1);
    fill_bench();
    for (long i = 0; i < count; i++)
        switch (line[0]) {
        case 's': if (quiet()) write_form(); break;
        case 'r': read_form(form, form_length); break;
        case 'c': copies(copy, form, form_length); break;
        }
    return last_line("done", 0);
}

int main(int count, char **words)
{
    if (count == 2 && strcmp(words[1], "save") == 0)
        return save();
    if (count == 2 && strcmp(words[1], "resume") == 0)
        return resume();
    if (count == 2 && strcmp(words[1], "laps") == 0)
        return laps();
    fputs("usage: keeper save | keeper resume | keeper laps\n", stderr);
    return 2;
}
