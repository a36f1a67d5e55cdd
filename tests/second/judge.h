/*
 * What a program owes to its input, and what it said held against that.  For
 * the judges: recapture.c, resave.c, relist.c and rewatch.c, which define
 * JUDGE, their name, and include this after the model and chance.h.
 */
#include "program.h"

static int number;                /* of the run in hand, 0 if none */
static const char *program;       /* that is tried */
static char what[200];            /* it is given, in words */
static long tries;

#define SAY_WHAT(...) snprintf(what, sizeof what, __VA_ARGS__)
#define ADD_WHAT(...) snprintf(what + strlen(what), sizeof what - strlen(what), __VA_ARGS__)

#define WRONG(...) \
    (printf(JUDGE ": try %ld, run %d, %s, %s: ", tries, number, program, what), \
     printf(__VA_ARGS__), putchar('\n'), exit(1))

/* ---- What is to be said ---------------------------------------------------- */

static char want[1 << 20];        /* with a 0 behind it */
static size_t want_length;

static void expect_nothing(void)
{
    want_length = 0;
    want[0] = 0;
}

static void expect(const char *text, size_t many)
{
    memcpy(want + want_length, text, many);
    want_length += many;
    want[want_length] = 0;
}

static int expect_last(const char *line, int status)
{
    expect(line, strlen(line));
    return status;
}

/* The line of each of so many records, one by one. */
static void expect_records(const unsigned char *records, size_t many)
{
    for (size_t i = 0; i < many; i++) {
        play(records + 4 * i);
        expect((const char *)out, out_length);
    }
}

/* ---- A try, and what came of it -------------------------------------------- */

/* How far it is, where a person looks on; the last line clears it. */
static void begin_try(const char *name)
{
    program = name;
    tries++;
    if (tries % 50 == 0 && isatty(2))
        fprintf(stderr, "\r\033[K" JUDGE ": %ld tries", tries);
}

static void clear_how_far(void)
{
    if (isatty(2))
        fputs("\r\033[K", stderr);
}

/* Where what was said first differs from what is due. */
static size_t differs_at(const char *said, size_t many)
{
    size_t at = 0;

    while (at < many && at < want_length && said[at] == want[at])
        at++;
    return at;
}

/* The lines that were said are those that are due. */
static void must_say(const char *said, size_t many, enum way way)
{
    static const char *const how[] = { "", ", read in pieces", ", in a talk" };
    size_t at = differs_at(said, many);
    long lines = 1;
    int due, came;

    if (at == want_length && at == many)
        return;
    while (at > 0 && want[at - 1] != '\n')
        at--;
    for (size_t i = 0; i < at; i++)
        lines += want[i] == '\n';
    due = (int)strcspn(want + at, "\n");
    came = (int)strcspn(said + at, "\n");
    WRONG("line %ld was to be \"%.*s\", not \"%.*s\"%s%s", lines, due, want + at, came, said + at,
          came == due && said[at + came] != '\n' ? " without a line feed" : "", how[way]);
}

/* Standard error has this, and nothing else. */
static void must_tell(const char *line)
{
    size_t many;
    char *told = (char *)read_file("told", &many);

    if (strcmp(told, line) != 0)
        WRONG("standard error was to have \"%.*s\", not \"%.*s\"", (int)strcspn(line, "\n"), line, (int)strcspn(told, "\n"), told);
    free(told);
}

static void must_end(int status)
{
    if (WIFSIGNALED(ended))
        WRONG("it was ended by signal %d", WTERMSIG(ended));
    if (WEXITSTATUS(ended) != status)
        WRONG("status %d was to come, not %d", status, WEXITSTATUS(ended));
}

/* ---- A bad setup ------------------------------------------------------------ */

/* In front of the input: a pair with a kind or a length that is just or far out
 * of its range. */
static void spoil_setup(void)
{
    static const int kinds[] = { 4, 4, 5, 128, 255 };
    static const int lengths[] = { 0, 0, 6, 6, 255 };
    unsigned char *pair = input + 2 * below(SLOTS);

    if (one_in(2)) {
        pair[0] = (unsigned char)ONE_OF(kinds);
    } else {
        pair[0] = (unsigned char)between(MEMORY, OLDER);
        pair[1] = (unsigned char)ONE_OF(lengths);
    }
}
