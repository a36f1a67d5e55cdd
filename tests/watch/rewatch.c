/*
 * Gives scripts to the program `watch` and judges what it says;
 * tests/watch/random calls it.  The answers and the numbers that are due are
 * the second opinion's (numbers.h); the ranges are those of docs/RANGES.md.
 *
 *   rewatch COUNT SEED DIR WATCH
 *       Each of the scripts DIR/1.script to DIR/COUNT.script is given to the
 *       command line WATCH as it is, with other slots, and cut or with a bad
 *       setup; some in a talk, one record at a time, where the lines of a record
 *       must have come before the next is given.  Also a small script, cut at
 *       every length, and all that happens to an older module.
 *
 * What is read: the script's lines, and between them lines of slots.  Those of a
 * record are in ascending order, of present slots, each with all names of its
 * kind in their order and plain decimal numbers in their ranges, and not the
 * slot's last line again; and behind every record the last line of each present
 * slot says what the second opinion has there.  So a line that is missing is
 * found too.
 *
 * A fault is told in a sentence, with the number of the event, and status 1;
 * DIR/input, DIR/said and DIR/told are what the program was given and what it
 * wrote to standard output and standard error.  Else one line sums up.
 */
#define JUDGE "rewatch"
#include "numbers.h"
#include "chance.h"
#include "judge.h"

enum { TALK_UP_TO = 60 };         /* records of a talk */

static const char *watcher;       /* command line */
static long scripts, events, lines;

/* ---- Ranges ------------------------------------------------------------------ */

static int within_bits(long value, long bits) { return (value & ~bits) == 0; }
static int within_ends(long value, long least, long most) { return least <= value && value <= most; }

/* What an older module does not have is 0: another half, other blocks. */
static int is_none(int at, int kind) { return kind == OLDER && (at == AT_HALF || within_ends(at, AT_PROTECTION + 1, AT_COMING - 1)); }

/* Of a present slot; `slot_length` is its write cycle's. */
static int is_in_range(int at, long value, int kind, long slot_length)
{
    if (is_none(at, kind))
        return value == 0;
    if (within_ends(at, AT_PROTECTION, AT_LATCH - 1) || within_ends(at, AT_MARK, AT_POINTER - 1))
        return within_ends(value, 0, 1);
    if (within_ends(at, AT_LATCH, AT_MARK - 1))
        return within_ends(value, 0, 255);
    switch (at) {
    case AT_KIND: return within_ends(value, MEMORY, OLDER);
    case AT_LENGTH: return within_ends(value, 1, 5);
    case AT_LEFT: return within_ends(value, 0, slot_length);
    case AT_HALF: case AT_VOLTAGE: case AT_ASSERTED: case AT_LEVEL: case AT_PENDING: return within_ends(value, 0, 1);
    case AT_PERMANENT: case AT_LASTING: case AT_WRITE_PROTECT: return within_ends(value, 0, 1);
    case AT_COUNTER: return within_ends(value, 0, 255);
    case AT_PLACE: return within_ends(value, 0, 15);
    case AT_PHASE: return within_ends(value, 0, 14);
    case AT_POINTER: return within_ends(value, 0, 9);
    case AT_CONFIGURATION: return within_bits(value, 0x07CF);
    case AT_HIGH: case AT_LOW: case AT_CRITICAL: return within_bits(value, 0x1FFC);
    case AT_RESOLUTION: return within_bits(value, 0x0003);
    case AT_TIMEOUT: return within_bits(value, 0x0001);
    default: return within_bits(value, 0xFFFF);  /* temperature and word */
    }
}

/* ---- Reading what was said --------------------------------------------------- */

static const char *at, *end;      /* what is not read yet */
static char where[40];            /* the reading is, in words */

#define SAY_WHERE(...) snprintf(where, sizeof where, __VA_ARGS__)

static int rest_of_line(void)     /* for people: a part of it */
{
    int many = 0;

    while (many < 40 && at + many < end && at[many] != '\n')
        many++;
    return many;
}

static int comes(const char *text)
{
    size_t many = strlen(text);

    if ((size_t)(end - at) < many || memcmp(at, text, many) != 0)
        return 0;
    at += many;
    return 1;
}

/* A line that is no slot's, with its line feed. */
static void must_come(const char *line)
{
    int due = (int)strcspn(line, "\n");

    if (at == end)
        WRONG("%s: \"%.*s\" was to come, and nothing came", where, due, line);
    if (!comes(line))
        WRONG("%s: \"%.*s\" was to come, not \"%.*s\"", where, due, line, rest_of_line(), at);
}

/* Plain decimal: no sign, no zero in front. */
static long read_number(int n, const char *name)
{
    const char *from = at;
    long value = 0;

    while (at < end && *at >= '0' && *at <= '9' && at - from < 6)
        value = 10 * value + *at++ - '0';
    if (at == from || (at < end && *at != ' ' && *at != '\n') || (*from == '0' && at - from > 1)) {
        at = from;
        WRONG("%s, slot %d: %s is no plain number: \"%.*s\"", where, n, name, rest_of_line(), at);
    }
    return value;
}

/* The numbers of a slot's line, of which the slot is read. */
static void read_numbers(int n, long to[NUMBERS])
{
    memset(to, 0, NUMBERS * sizeof to[0]);
    for (int i = 0; i < NUMBERS; i++) {
        if (!has_number(bus[n].kind, i))
            continue;
        if (!comes(" ") || !comes(name_of[i]) || !comes("="))
            WRONG("%s, slot %d: \"%s=\" was to come, not \"%.*s\"", where, n, name_of[i], rest_of_line(), at);
        to[i] = read_number(n, name_of[i]);
        if (!is_in_range(i, to[i], bus[n].kind, to[AT_LENGTH]))
            WRONG("%s, slot %d: %s is out of its range: %ld", where, n, name_of[i], to[i]);
    }
    if (!comes("\n"))
        WRONG("%s, slot %d: the line was to end, not to go on with \"%.*s\"", where, n, rest_of_line(), at);
    lines++;
}

static long held[SLOTS][NUMBERS];  /* what the last line of each says */
static int is_held[SLOTS];         /* there was one */

static int at_slot(void) { return at < end && *at >= '0' && *at <= '9'; }

static void read_slots(int came[SLOTS])
{
    long is[NUMBERS];
    int last = -1;

    memset(came, 0, SLOTS * sizeof came[0]);
    while (at_slot()) {
        int n = *at++ - '0';

        if (n >= SLOTS || bus[n].kind == ABSENT)
            WRONG("%s: a line of slot %d, which is not there", where, n);
        if (n <= last)
            WRONG("%s: a line of slot %d behind that of slot %d", where, n, last);
        last = n;
        read_numbers(n, is);
        if (is_held[n] && memcmp(is, held[n], sizeof is) == 0)
            WRONG("%s, slot %d: a line, and nothing has changed", where, n);
        memcpy(held[n], is, sizeof is);
        is_held[n] = came[n] = 1;
    }
}

/* The lines of slots that come next, and what each slot then holds. */
static void must_show_slots(void)
{
    long due[NUMBERS];
    int came[SLOTS];

    read_slots(came);
    for (int n = 0; n < SLOTS; n++) {
        if (bus[n].kind == ABSENT)
            continue;
        if (!is_held[n])
            WRONG("%s: no line of slot %d", where, n);
        numbers_of(&bus[n], due);
        for (int i = 0; i < NUMBERS; i++)
            if (held[n][i] != due[i])
                WRONG("%s, slot %d: %s was to be %ld, not %ld%s", where, n, name_of[i], due[i], held[n][i],
                      came[n] ? "" : " (there is no line of it)");
    }
}

static void must_show_events(void)
{
    size_t total = (length - SETUP) / 4;

    for (size_t i = 0; i < total; i++) {
        char line[8];

        SAY_WHERE("event %lu of %lu", (unsigned long)i + 1, (unsigned long)total);
        play(input + SETUP + 4 * i);
        memcpy(line, out, out_length);
        line[out_length] = 0;
        must_come(line);
        must_show_slots();
        events++;
    }
    if ((length - SETUP) % 4 != 0) {
        SAY_WHERE("the end");
        must_come("short\n");
    }
}

static void must_show(const char *said, size_t many)
{
    at = said;
    end = said + many;
    memset(is_held, 0, sizeof is_held);
    SAY_WHERE("the setup");
    if (length < SETUP) {
        must_come("short\n");
    } else if (!setup(input)) {
        must_come("R5\n");
    } else {
        must_show_slots();
        must_show_events();
    }
    SAY_WHERE("the end");
    if (at != end)
        WRONG("%s: nothing more was to come, not \"%.*s\"", where, rest_of_line(), at);
}

/* ---- Trying the input -------------------------------------------------------- */

static size_t said_by[TALK_UP_TO + 1];  /* bytes that are said, after so many records */

/* Bytes of the lines of all slots whose numbers are not those of before; makes
 * them those of before. */
static size_t bytes_of_changes(long before[SLOTS][NUMBERS])
{
    size_t many = 0;
    long is[NUMBERS];

    for (int n = 0; n < SLOTS; n++) {
        numbers_of(&bus[n], is);
        if (bus[n].kind == ABSENT || memcmp(is, before[n], sizeof is) == 0)
            continue;
        memcpy(before[n], is, sizeof is);
        many += strlen("0\n");
        for (int i = 0; i < NUMBERS; i++)
            if (has_number(bus[n].kind, i))
                many += (size_t)snprintf(NULL, 0, " %s=%ld", name_of[i], is[i]);
    }
    return many;
}

/* How much is said when: the whole talk, beforehand. */
static void rehearse(void)
{
    static long before[SLOTS][NUMBERS];

    memset(said_by, 0, sizeof said_by);
    if (length < SETUP || !setup(input))
        return;
    memset(before, 0, sizeof before);
    said_by[0] = bytes_of_changes(before);
    for (size_t i = 0; i < (length - SETUP) / 4; i++) {
        play(input + SETUP + 4 * i);
        said_by[i + 1] = said_by[i] + out_length + bytes_of_changes(before);
    }
}

static size_t due(size_t given) { return given < SETUP ? 0 : said_by[(given - SETUP) / 4]; }

static void try_input(enum way way)
{
    static const char *const how[] = { "", ", read in pieces", ", in a talk" };
    size_t many, silent;
    char *said;

    if (way == AS_TALK)
        rehearse();
    ADD_WHAT("%s", how[way]);
    begin_try("watch");
    scripts++;
    silent = run_program(watcher, way, SETUP, due);
    if (silent > 0)
        WRONG("event %lu: its lines were to come before more is given (0: the setup)", (unsigned long)(silent - SETUP) / 4);
    must_tell("");
    said = (char *)read_file("said", &many);
    must_show(said, many);
    must_end(0);
    free(said);
}

static enum way some_way(void) { return one_in(3) ? IN_PIECES : AS_FILE; }

/* ---- Inputs made of a script ------------------------------------------------- */

static void put_up(const unsigned char *script, size_t many)
{
    memcpy(input, script, many);
    length = many;
    SAY_WHAT("%lu bytes", (unsigned long)many);
}

/* Slots of other kinds and lengths, all mixes alike, or all of one kind. */
static void mix_slots(void)
{
    int all = one_in(8) ? below(4) : -1;

    for (int n = 0; n < SLOTS && length >= SETUP; n++) {
        input[2 * n] = (unsigned char)(all >= 0 ? all : below(4));
        input[2 * n + 1] = (unsigned char)between(1, 5);
    }
    ADD_WHAT(", other slots");
}

static void cut_somewhere(void)
{
    if (one_in(4))
        length = (size_t)below(SETUP + 1);
    else
        length = (size_t)below((int)length + 1);
    ADD_WHAT(", cut after %lu", (unsigned long)length);
}

static void one_script(void)
{
    unsigned char *script;
    size_t many;
    char name[40];

    snprintf(name, sizeof name, "%d.script", number);
    script = read_file(name, &many);
    put_up(script, many);
    try_input(some_way());
    put_up(script, many);
    mix_slots();
    try_input(some_way());
    put_up(script, many);
    if (one_in(2))
        mix_slots();
    if (many >= SETUP && one_in(3)) {
        spoil_setup();
        ADD_WHAT(", a bad setup");
    } else if (many > 0) {
        cut_somewhere();
    }
    try_input(some_way());
    if (number % 10 == 1) {
        put_up(script, many < SETUP + 4 * TALK_UP_TO ? many : SETUP + 4 * TALK_UP_TO);
        try_input(AS_TALK);
    }
    free(script);
}

/* A start, a control byte and a stop, cut at every length; then a talk, the last
 * record of which is cut, and one with a bad setup. */
static void small_scripts(void)
{
    static const unsigned char script[SETUP + 14] = {
        1, 1, 0, 0, 3, 2, 2, 5, 0, 0, 0, 0, 0, 0, 2, 1, START, 0, 0, 0, BYTE, 0, 0, 0xA6, STOP, 0, 0, 0, TICK, 0 };

    number = 0;                   /* no run any more */
    for (size_t many = 0; many <= sizeof script; many++) {
        put_up(script, many);
        try_input(AS_FILE);
    }
    put_up(script, sizeof script);
    try_input(AS_TALK);
    put_up(script, sizeof script);
    input[0] = 4;
    try_input(AS_TALK);
}

/* ---- An older module ---------------------------------------------------------- */

static void add(int kind, int slot, int value)
{
    const unsigned char record[4] = { (unsigned char)kind, (unsigned char)slot, 0, (unsigned char)value };

    memcpy(input + length, record, 4);
    length += 4;
}

/* What happens to it: s start, p stop, o timeout, t tick, v and u high voltage on
 * and off, e and d its write-protect pin on and off, r a read, c and x power cycles
 * with the numbers 0 and 1; l is its own select in a lasting form, w and m are the
 * control bytes of a memory write and read, and other bytes are in hex. */
static void add_happening(const char *letters, int n)
{
    for (; *letters != 0; letters++)
        switch (*letters) {
        case 's': add(START, 0, 0); break;
        case 'p': add(STOP, 0, 0); break;
        case 'o': add(TIMEOUT, 0, 0); break;
        case 't': add(TICK, 0, 0); break;
        case 'v': add(VOLTAGE, n, 1); break;
        case 'u': add(VOLTAGE, n, 0); break;
        case 'e': add(WRITE_PROTECT, n, 1); break;
        case 'd': add(WRITE_PROTECT, n, 0); break;
        case 'r': add(READ, 0, 1); break;
        case 'c': add(POWER, 0, 0); break;
        case 'x': add(POWER, 0, 1); break;
        case 'l': add(BYTE, 0, 0x60 + 2 * n); break;
        case 'w': add(BYTE, 0, 0xA0 + 2 * n); break;
        case 'm': add(BYTE, 0, 0xA1 + 2 * n); break;
        default:
            add(BYTE, 0, (int)strtol((const char[]){ letters[0], letters[1], 0 }, NULL, 16));
            letters++;
            break;
        }
}

/* The pin, with and without an exchange; lasting forms that are cancelled in every
 * way, and a page's cycle behind one; protect and clear; and one that lasts, by the
 * tick or by the power cycle that ends it. */
static void older_scripts(void)
{
    static const char *const happenings[] = {
        "eedesddp", "esw005Apdsw005A5Ae5Ap", "sw7F5Aepttsmrrp", "sw00p",
        "sl0000s", "sl0000rp", "sl0000o", "sl000000p", "sl00p", "sl0000epdt", "sl00e00dptcsmp", "sl0000vus62p",
        "sl0000ps", "sl0000pcsl0000oswF05Aptt", "s6Ep", "s6Cp", "sl", "vs620000ups", "vs620000ptt", "s63p", "usl0000rp",
        "vs660000ept", "ds660000petd", "vs62p", "vs620000pxusl00op", "vslp" };
    static const char *const ends[] = { "usl0000ptet", "usl0000vpetts62ps66pudslp", "usl0000pxsw005Ap", "vs620000pttusl0000ptt" };

    for (int i = 0; i < 2 * 4; i++) {
        int n = below(SLOTS);

        for (int k = 0; k < SLOTS; k++) {
            input[2 * k] = (unsigned char)(k == n ? OLDER : i < 4 ? ABSENT : between(ABSENT, OLDER));
            input[2 * k + 1] = 2;
        }
        length = SETUP;
        for (int k = 0; k < (int)(sizeof happenings / sizeof happenings[0]); k++)
            add_happening(happenings[k], n);
        add_happening(ends[i % 4], n);
        SAY_WHAT("all that happens to an older module in slot %d", n);
        try_input(some_way());
    }
}

/* ---- All of it --------------------------------------------------------------- */

int main(int count, char **words)
{
    unsigned long long seed;
    int runs;

    if (count != 5) {
        fputs("usage: rewatch COUNT SEED DIR WATCH\n", stderr);
        return 2;
    }
    runs = (int)atol(words[1]);
    seed = strtoull(words[2], NULL, 10) * 1000003ULL;
    folder = words[3];
    watcher = words[4];
    signal(SIGPIPE, SIG_IGN);     /* a program that ends early */
    small_scripts();
    seed_with(seed);
    older_scripts();
    for (number = 1; number <= runs; number++) {
        seed_with(seed + (unsigned)number);
        one_script();
    }
    clear_how_far();
    printf("rewatch: %ld scripts, %ld events, %ld slot lines, all right\n", scripts, events, lines);
    return 0;
}
