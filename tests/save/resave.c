/*
 * Makes benches, has the program `save` save them and the program `resume` go
 * on with them, and judges what both say; tests/save/random calls it.  Written
 * from the sentences of requests P5, P8 and P9, on the second opinion's model
 * and with a writer and a reader of its own (forms.h); no line of it comes from
 * the crates.
 *
 *   resave COUNT TRIES SEED DIR SAVE RESUME [UNSEEN-SAVE UNSEEN-RESUME]
 *       Cuts each of the scripts DIR/1.script to DIR/COUNT.script somewhere:
 *       the command line SAVE saves what is before, RESUME goes on from there.
 *       Also forms that are damaged, inputs that are cut, bad setups.
 *       Then small benches: saved in every phase; their forms with every byte
 *       changed to every other value, and cut at every length, some TRIES of
 *       these, or all (0).
 *
 * The unseen ones are the same programs without a status of their own: most
 * inputs then go to those.  A fault is told in a sentence, with status 1;
 * DIR/input, DIR/said and DIR/told are what the program was given and what it
 * wrote to standard output and standard error.  Else one line sums up.
 */
#define JUDGE "resave"
#include "forms.h"
#include "chance.h"
#include "judge.h"
#include "damage.h"

enum { SEEN_OF = 19 };            /* one in so many goes to the ones with a status */
enum { TALK_UP_TO = 60 };         /* records of a talk */

static const char *saver[2], *resumer[2];  /* command lines: seen, unseen */
static long by_status[2][3];      /* of `save`, of `resume` */

/* ---- What is to be said, by the rules alone --------------------------------- */

/* What `save` owes to the input: the form in `want`, or nothing and a line for
 * standard error.  Gives the status. */
static int judge_save(const char **line)
{
    expect_nothing();
    *line = "short\n";
    if (length < SETUP)
        return 2;
    if (!setup(input)) {
        *line = "R5\n";
        return 2;
    }
    for (size_t at = SETUP; at + 4 <= length; at += 4)
        play(input + at);
    if ((length - SETUP) % 4 != 0)
        return 2;
    if (!quiet()) {
        *line = "R8\n";
        return 1;
    }
    *line = "";
    write_form();
    expect((const char *)form, form_length);
    return 0;
}

/* The length that stands in front of the form. */
static unsigned long announced(void) { return 65536UL * word_at(input) + word_at(input + 2); }

/* What `resume` owes to the input, in `want`.  Gives the status. */
static int judge_resume(void)
{
    size_t records;

    expect_nothing();
    if (length < 4)
        return expect_last("short\n", 2);
    if (announced() > 65535)
        return expect_last("R10\n", 1);
    records = 4 + announced();
    if (length < records)
        return expect_last("short\n", 2);
    memset(memory, 0xFF, sizeof memory);
    if (!read_form(input + 4, announced()))
        return expect_last("R10\n", 1);
    expect_records(input + records, (length - records) / 4);
    if ((length - records) % 4 != 0)
        return expect_last("short\n", 2);
    return 0;
}

/* ---- Trying the input -------------------------------------------------------- */

static int begin_one(const char *name)
{
    begin_try(name);
    return tries % SEEN_OF == 0 || saver[1] == NULL;
}

static void try_save(void)
{
    const char *line;
    int seen = begin_one("save");
    int status = judge_save(&line);
    size_t many, at;
    char *said;

    by_status[0][status]++;
    run_program(saver[!seen], one_in(3) ? IN_PIECES : AS_FILE, 0, NULL);
    must_tell(line);
    said = (char *)read_file("said", &many);
    at = differs_at(said, many);
    if (at < want_length && at < many)
        WRONG("byte %lu of the form was to be %02Xh, not %02Xh", (unsigned long)at, want[at] & 255, said[at] & 255);
    if (many != want_length)
        WRONG("%lu bytes were to come, not %lu", (unsigned long)want_length, (unsigned long)many);
    must_end(seen ? status : 0);
    free(said);
}

/* What `resume` must have said when so many bytes are given, and no end. */
static size_t due(size_t given)
{
    size_t at = 0;

    if (given < 4)
        return 0;
    if (announced() > 65535)
        return strlen("R10\n");
    if (given < 4 + announced())
        return 0;
    if (memcmp(want, "R10", 3) == 0)
        return want_length;
    for (size_t lines = (given - 4 - announced()) / 4; lines > 0; lines--)
        at += strcspn(want + at, "\n") + 1;
    return at;
}

/* Where the records begin, or would. */
static size_t form_end(void) { return length < 4 || announced() > 65535 ? 4 : 4 + announced(); }

/* A talk is for inputs that bring the form and few records; the seen program
 * has one wherever it can. */
static enum way a_way(int seen)
{
    if ((seen || one_in(3)) && length >= form_end() && length - form_end() <= 4 * TALK_UP_TO)
        return AS_TALK;
    return one_in(3) ? IN_PIECES : AS_FILE;
}

static void try_resume(void)
{
    int seen = begin_one("resume");
    enum way way = a_way(seen && saver[1] != NULL);
    int status = judge_resume();
    size_t many, silent;
    char *said;

    by_status[1][status]++;
    silent = run_program(resumer[!seen], way, form_end(), due);
    if (silent)
        WRONG("what is due to the first %lu bytes did not come before more were given", (unsigned long)silent);
    said = (char *)read_file("said", &many);
    must_say(said, many, way);
    must_end(seen ? status : 0);
    free(said);
}

/* ---- Records behind a form ---------------------------------------------------- */

static unsigned char tail[1 << 19];
static size_t tail_length;

static void add(int kind, int slot, int value)
{
    unsigned char record[4] = { (unsigned char)kind, (unsigned char)slot, (unsigned char)(value >> 8), (unsigned char)value };

    memcpy(tail + tail_length, record, 4);
    tail_length += 4;
}

/* A start and these bytes, up to a negative one. */
static void add_bytes(int first, int second, int third)
{
    int bytes[] = { first, second, third };

    add(START, 0, 0);
    for (int i = 0; i < 3 && bytes[i] >= 0; i++)
        add(BYTE, 0, bytes[i]);
}

static void add_reads(int many)
{
    while (many-- > 0)
        add(READ, 0, many > 0);
    add(STOP, 0, 0);
}

/* Counter and half; of a sensor the pointer and the registers. */
static void look_at(int n)
{
    add_bytes(0xA1 + 2 * n, -1, -1);
    add_reads(1);
    if (bus[n].kind != MEMORY_WITH_SENSOR)
        return;
    add_bytes(0x31 + 2 * n, -1, -1);
    add_reads(2);
    for (int i = 0; i < SAVED; i++) {
        add_bytes(0x30 + 2 * n, saved[i], -1);
        add_bytes(0x31 + 2 * n, -1, -1);
        add_reads(2);
    }
}

/* Both blocks of a half: whether they take a byte, which is then abandoned; and
 * if asked for, all bytes of the half. */
static void look_at_half(int n, int whole)
{
    add_bytes(0xA0 + 2 * n, 0x00, 0x5A);
    add_bytes(0xA0 + 2 * n, 0x80, 0xA5);
    add_bytes(0xA0 + 2 * n, 0x00, -1);
    add_bytes(0xA1 + 2 * n, -1, -1);
    add_reads(whole ? 256 : 1);
}

/* High voltage of one slot, when the others have none. */
static void look_at_voltage(int chosen)
{
    for (int n = 0; n < SLOTS; n++)
        if (n != chosen)
            add(VOLTAGE, n, 0);
    add_bytes(0x66, -1, -1);
    add(STOP, 0, 0);
}

/* Whether an older module is protected for ever, when no slot has high voltage:
 * it then acknowledges neither its own select nor, with voltage, a clear.  Neither
 * has a byte behind it, so nothing comes of them.  The pin is seen by what it says
 * to a data byte (look_at_half). */
static void look_at_older(int n)
{
    add_bytes(0x60 + 2 * n, -1, -1);
    add(STOP, 0, 0);
    add(VOLTAGE, n, 1);
    add_bytes(0x66, -1, -1);
    add(STOP, 0, 0);
    add(VOLTAGE, n, 0);
}

/* A look at all that a form holds, of the slots that are now present. */
static void look(int whole)
{
    int chosen = below(SLOTS);

    add_bytes(0x6D, -1, -1);
    add(STOP, 0, 0);
    for (int n = 0; n < SLOTS; n++)
        if (bus[n].kind != ABSENT)
            look_at(n);
    for (int half = 0; half < 2; half++) {
        add_bytes(half ? 0x6E : 0x6C, -1, -1);
        add(STOP, 0, 0);
        for (int n = 0; n < SLOTS; n++)
            if (bus[n].kind != ABSENT)
                look_at_half(n, whole);
    }
    while (present_slots() > 0 && bus[chosen].kind == ABSENT)
        chosen = below(SLOTS);
    look_at_voltage(chosen);
    add(VOLTAGE, chosen, 0);
    for (int n = 0; n < SLOTS; n++)
        if (bus[n].kind == OLDER)
            look_at_older(n);
}

/* ---- Inputs made of a form and records ----------------------------------------- */

static void put_up(unsigned long announced, const unsigned char *bytes, size_t many, size_t records)
{
    for (int i = 0; i < 4; i++)
        input[i] = (unsigned char)(announced >> (24 - 8 * i));
    memcpy(input + 4, bytes, many);
    memcpy(input + 4 + many, tail, records);
    length = 4 + many + records;
}

/* The damaged form, and some of the records. */
static void try_bad(void)
{
    size_t most = tail_length / 4 < 2000 ? tail_length / 4 : 2000;
    size_t records = one_in(4) ? 0 : 4 * (size_t)below((int)most + 1) + (one_in(6) ? (size_t)between(1, 3) : 0);

    if (records > tail_length)
        records = tail_length;
    put_up(bad_length, bad, bad_length, records);
    try_resume();
}

/* The good form, or nothing of it, announced with another length. */
static void try_announced(unsigned long said, size_t many)
{
    SAY_WHAT("%lu bytes announced as %lu", (unsigned long)many, said);
    put_up(said, good, many, tail_length < 400 ? tail_length : 400);
    try_resume();
}

static void try_length(void)
{
    size_t many = one_in(3) ? 0 : good_length;

    switch (below(4)) {
    case 0: try_announced(good_length + 1, many); break;
    case 1: try_announced(good_length + 4, many); break;
    case 2: try_announced(good_length - 1, many); break;
    default: try_announced(good_length + (65536UL << below(16)), many); break;
    }
}

/* The longest length that is not refused at once, with so many bytes. */
static void try_longest(void)
{
    memset(bad, 0, sizeof bad);
    memcpy(bad, good, good_length);
    bad_length = 65535;
    SAY_WHAT("65535 bytes, the form at their front");
    put_up(bad_length, bad, bad_length, 40);
    try_resume();
}

/* The good form and its records, cut somewhere. */
static void try_cut(void)
{
    put_up(good_length, good, good_length, tail_length);
    switch (below(4)) {
    case 0: length = (size_t)below(5); break;
    case 1: length = 4 + (size_t)below((int)good_length); break;
    case 2: length = 4 + good_length + (size_t)below((int)(tail_length < 40 ? tail_length + 1 : 40)); break;
    default: length = (size_t)below((int)length); break;
    }
    SAY_WHAT("cut after %lu bytes", (unsigned long)length);
    try_resume();
}

/* ---- Runs, cut somewhere -------------------------------------------------------- */

static unsigned char *script;
static size_t script_length;

/* The model has played the script up to there. */
static void play_to(size_t at)
{
    setup(script);
    for (size_t i = SETUP; i < at; i += 4)
        play(script + i);
}

static size_t any_moment(void) { return SETUP + 4 * (size_t)below((int)(script_length - SETUP) / 4 + 1); }

/* What a moment is to have: nothing more, a change that is pending, or an older
 * module with something for tag 6. */
enum wish { ANYTHING, PENDING, OLDER_BITS, WISHES };

static int is_granted(enum wish wish)
{
    return wish == PENDING ? any_pending() : wish == OLDER_BITS ? any_older_bits() : 1;
}

/* A moment at which the bench may be saved: the first from a chosen one on, or
 * else the last before it.  In two of three runs the first that has more, too. */
static size_t quiet_moment(void)
{
    size_t chosen = any_moment(), last = SETUP;
    enum wish wish = (enum wish)below(WISHES);

    setup(script);
    for (size_t at = SETUP; ; at += 4) {
        if (quiet() && (at < chosen || is_granted(wish)))
            last = at;
        if (last >= chosen || at == script_length)
            return last;
        play(script + at);
    }
}

static void try_saving(size_t many, const char *words)
{
    memcpy(input, script, many);
    length = many;
    SAY_WHAT("%s %lu bytes of its script", words, (unsigned long)many);
    try_save();
}

static void try_bad_setup(void)
{
    memcpy(input, script, script_length);
    spoil_setup();
    length = one_in(2) ? any_moment() + (size_t)below(4) : (size_t)between(SETUP - 1, SETUP + 5);
    if (length > script_length)
        length = script_length;
    SAY_WHAT("a bad setup");
    try_save();
}

/* The records behind the moment, with a look at all before or behind them, as
 * the unbroken run goes on with them: its lines are due. */
static void try_unbroken(size_t moment)
{
    static char lines[1 << 20];
    size_t many;
    int before = one_in(3), whole = one_in(2);

    tail_length = 0;
    play_to(moment);
    keep_form();
    if (before)
        look(whole);
    memcpy(tail + tail_length, script + moment, script_length - moment);
    tail_length += script_length - moment;
    if (!before && one_in(2))
        look(whole);
    expect_nothing();
    expect_records(tail, tail_length / 4);
    memcpy(lines, want, want_length);
    many = want_length;
    put_up(good_length, good, good_length, tail_length);
    SAY_WHAT("the run from byte %lu of its script on", (unsigned long)moment);
    judge_resume();
    if (many != want_length || memcmp(lines, want, many) != 0)
        WRONG("the test is at odds with itself");
    try_resume();
}

static void one_run(void)
{
    char name[40];
    size_t moment;

    snprintf(name, sizeof name, "%d.script", number);
    script = read_file(name, &script_length);
    moment = quiet_moment();
    try_saving(moment, "a quiet bench,");
    try_saving(any_moment(), "a bench,");
    if (number % 2) {
        try_saving((size_t)below((int)script_length), "a cut,");
        try_bad_setup();
    }
    try_unbroken(moment);
    for (int i = 0; i < 3; i++) {
        damage_number();
        try_bad();
    }
    damage_field();
    try_bad();
    damage_pending();
    try_bad();
    damage_older();
    try_bad();
    if (number % 2)
        try_length();
    else
        try_cut();
    free(script);
}

/* ---- How much of what follows is tried ---------------------------------------------- */

enum { ABOUT_ALL = 110000 };      /* changes of one byte, and cuts */
static long every;                /* one in so many is tried */

/* ---- A bench in every phase --------------------------------------------------------- */

/* What happens last.  Bytes are in hex; w and m are the control bytes of a
 * memory write and read of the slot, g and k of a sensor write and read; s start,
 * p stop, o timeout, c power cycle, t tick, v and u high voltage on and off, r and
 * n a read with ACK and NACK, h a temperature above all limits. */
static const char *const endings[] = {
    "", "s", "sFF", "sn", "sp", "so", "sc", "sw", "sw00", "sw005A", "sw00p", "sw005Ao", "sw005Ap", "sw005Apt", "sw005Aptt",
    "sw005Apc", "sw005As", "sm", "smr", "smn", "smnp", "sm00", "s6C", "s6E", "s6E00", "s6Ep", "s6D", "s63", "s66",
    "vs62", "vs6200", "vs620000", "vs62000000", "vs62u", "vs6200p", "vs620000p", "vs620000pt", "vs620000pst", "vs620000ptt",
    "vs600000ptt", "vs680000ptt", "vs6A0000ptt", "vs660000ptt", "sg", "sg0A", "sg01", "sg0107", "sg010700", "sg010700p",
    "sg01070000", "sk", "skr", "skrr", "skrrp", "sw005Apstt" };

/* Of those with which an EVENT pin has to do; q is the control byte of a sensor
 * write of the next slot, i is h of that slot. */
static const char *const pin_endings[] = {
    "sg010009ph", "sg01000Bph", "sg010008ph", "sg010001ph", "sg01000Dph", "sg010109ph", "hsg010009p", "sg010009phsg010020",
    "sg010009phsg010029p", "sg010009phsg010008psg010009p", "sg010009phsg0100p", "sg0100C9phsg010000p", "sg0100C9phsg010020p",
    "sg010009phc", "sg010009psw005Aphtt", "sg010009psq010009ph", "sg010009psq010009pi", "sg010009psq010009phi",
    "sg010009psq010008phi", "sg010008psq010009phi" };

/* Of an older module: l and j are its select in the lasting form and in its read
 * form, e and d its write-protect pin on and off, x a power cycle with the number
 * 1; f and b are l and e of the next slot. */
static const char *const older_endings[] = {
    "", "e", "ed", "ec", "el", "esl", "sl", "sj", "sl00", "sl0000", "sl000000", "sl00p", "sl0000o", "sl0000p", "sl0000pt",
    "sl0000ptt", "sl0000pttc", "sl0000pc", "sl0000px", "sl0000ep", "sl0000eptt", "sl0000edptt", "esl0000dptt", "sl0000pett",
    "sl0000ptte", "sl0000vptt", "sl0000vuptt", "vsl0000ptt", "vs62", "vs620000", "vs620000u", "vs620000p", "vs620000pt",
    "vs620000ptt", "vs620000ptte", "vs620000eptt", "vs620000pttusl0000ptt", "vs620000pttusl0000ptte", "vs620000pttvs660000p",
    "vs620000pttvs660000ptt", "usl0000pttvs660000ptt", "sl0000ptts6E0000p", "s6E", "s6Ep", "s6E0000p", "sw005A", "esw005A",
    "esw005Ap", "sw005Ae", "sw005Aep", "sw005Aeptt", "sw005Ae5Aptt", "sw805Aptt", "sw0F5A5Aptte", "sw805Ap", "smnp", "smrrnp",
    "b", "eb", "bsl0000ptt", "sf0000ptt", "sl0000pttsf0000ptt", "sl0000pttsf0000ptteb", "esf0000ptt", "sf0000ptte",
    "vs620000pttsf0000ptt" };

/* Of an older module beside a sensor, which is the next slot. */
static const char *const mixed_endings[] = {
    "e", "sl0000ptt", "sl0000ptte", "sq010009pi", "sq010009pie", "sq010009pisl0000ptt", "esq010009pic", "sw005Apttesq010009pi" };

static void add_letter(char letter, int n)
{
    switch (letter) {
    case 's': add(START, 0, 0); break;
    case 'p': add(STOP, 0, 0); break;
    case 'o': add(TIMEOUT, 0, 0); break;
    case 'c': add(POWER, 0, 0); break;
    case 'h': add(TEMPERATURE, n, 100); break;
    case 't': add(TICK, 0, 0); break;
    case 'v': add(VOLTAGE, n, 1); break;
    case 'u': add(VOLTAGE, n, 0); break;
    case 'r': add(READ, 0, 1); break;
    case 'n': add(READ, 0, 0); break;
    case 'w': add(BYTE, 0, 0xA0 + 2 * n); break;
    case 'm': add(BYTE, 0, 0xA1 + 2 * n); break;
    case 'g': add(BYTE, 0, 0x30 + 2 * n); break;
    case 'k': add(BYTE, 0, 0x31 + 2 * n); break;
    case 'q': add(BYTE, 0, 0x30 + 2 * ((n + 1) % SLOTS)); break;
    case 'i': add(TEMPERATURE, (n + 1) % SLOTS, 100); break;
    case 'l': add(BYTE, 0, 0x60 + 2 * n); break;
    case 'j': add(BYTE, 0, 0x61 + 2 * n); break;
    case 'e': add(WRITE_PROTECT, n, 1); break;
    case 'd': add(WRITE_PROTECT, n, 0); break;
    case 'x': add(POWER, 0, 1); break;
    case 'f': add(BYTE, 0, 0x60 + 2 * ((n + 1) % SLOTS)); break;
    case 'b': add(WRITE_PROTECT, (n + 1) % SLOTS, 1); break;
    }
}

static void add_ending(const char *ending, int n)
{
    tail_length = 0;
    for (; *ending != 0; ending++) {
        char pair[3] = { ending[0], ending[1], 0 };

        if (*ending >= 'a') {
            add_letter(*ending, n);
        } else {
            add(BYTE, 0, (int)strtol(pair, NULL, 16));
            ending++;
        }
    }
}

enum others { NO_SLOT, NO_OTHER, SEVEN_SENSORS, A_SENSOR_AND_MEMORIES, AN_OLDER, OLDER_ONES, AN_OLDER_AND_A_SENSOR };

/* What slot n is that something happens to. */
static int kind_of(enum others others) { return others == NO_SLOT ? ABSENT : others < AN_OLDER ? MEMORY_WITH_SENSOR : OLDER; }

/* What slot i is beside it. */
static int kind_beside(enum others others, int n, int i)
{
    int follows = i == (n + 1) % SLOTS;

    switch (others) {
    case SEVEN_SENSORS: return MEMORY_WITH_SENSOR;
    case A_SENSOR_AND_MEMORIES: return follows ? MEMORY_WITH_SENSOR : between(ABSENT, MEMORY);
    case OLDER_ONES: return follows ? OLDER : below(4) ? ABSENT : between(MEMORY, OLDER);
    case AN_OLDER_AND_A_SENSOR: return follows ? MEMORY_WITH_SENSOR : between(ABSENT, OLDER);
    default: return ABSENT;
    }
}

/* A sensor or an older module with a cycle of two ticks, and others. */
static void try_ending(const char *ending, enum others others)
{
    static const char *const told[] = { "no slot", "one slot", "eight slots", "two sensors and memories", "an older module",
                                        "older modules", "an older module and a sensor" };
    int n = below(SLOTS);

    for (int i = 0; i < SLOTS; i++) {
        input[2 * i] = (unsigned char)(i == n ? kind_of(others) : kind_beside(others, n, i));
        input[2 * i + 1] = input[2 * i] == ABSENT ? 0 : 2;
    }
    add_ending(ending, n);
    memcpy(input + SETUP, tail, tail_length);
    length = SETUP + tail_length;
    SAY_WHAT("%s, in the end \"%s\" on slot %d", told[others], ending, n);
    try_save();
}

static void sweep_phases(void)
{
    for (int i = 0; i < (int)(sizeof endings / sizeof endings[0]); i++) {
        try_ending(endings[i], NO_OTHER);
        if (every == 1 || one_in(4))
            try_ending(endings[i], SEVEN_SENSORS);
        if (every == 1 || one_in(8))
            try_ending(endings[i], NO_SLOT);
    }
    for (int i = 0; i < (int)(sizeof pin_endings / sizeof pin_endings[0]); i++)
        try_ending(pin_endings[i], i % 2 ? SEVEN_SENSORS : A_SENSOR_AND_MEMORIES);
    for (int i = 0; i < (int)(sizeof older_endings / sizeof older_endings[0]); i++)
        try_ending(older_endings[i], i % 2 && strpbrk(older_endings[i], "bf") == NULL ? AN_OLDER : OLDER_ONES);
    for (int i = 0; i < (int)(sizeof mixed_endings / sizeof mixed_endings[0]); i++)
        try_ending(mixed_endings[i], AN_OLDER_AND_A_SENSOR);
}

/* ---- Every byte of small forms --------------------------------------------------- */

/* Any registers; often those with which a change can pend, and does. */
static void stir_sensor(struct slot *s)
{
    s->pointer = below(REGISTERS);
    for (int i = 0; i < SAVED; i++)
        s->reg[saved[i]] = below(65536) & kept_bits[saved[i]];
    if (one_in(2))
        s->reg[1] = (s->reg[1] & ~CRITICAL_ALONE) | ENABLED | INTERRUPT;
    s->pending = can_pend(s->reg[1]) && below(4);
}

/* Half 0, no block but the first, and that for ever only where it is protected. */
static void stir_older(struct slot *s)
{
    s->half = 0;
    for (int b = 1; b < BLOCKS; b++)
        s->is_protected[b] = 0;
    s->permanent = s->is_protected[0] && below(2);
    s->write_protect = below(2);
}

/* A bench in any state that may be saved. */
static void stir(const unsigned char pairs[SETUP])
{
    setup(pairs);
    for (int n = 0; n < SLOTS; n++) {
        struct slot *s = &bus[n];

        if (s->kind == ABSENT)
            continue;
        for (int b = 0; b < BLOCKS; b++)
            s->is_protected[b] = below(2);
        s->half = below(2);
        s->counter = below(256);
        s->high_voltage = below(2);
        for (int i = 0; i < SLOT_BYTES; i++)
            memory[SLOT_BYTES * n + i] = (unsigned char)below(256);
        if (s->kind == MEMORY_WITH_SENSOR)
            stir_sensor(s);
        if (s->kind == OLDER)
            stir_older(s);
    }
}

/* Of the forms that the reader accepts each is the one that the writer gives. */
static void must_be_the_form(void)
{
    if (!read_form(bad, bad_length))
        return;
    write_form();
    if (form_length != bad_length || memcmp(form, bad, bad_length) != 0)
        WRONG("the plain reader accepts what the plain writer would not write");
}

static void try_small(int is_tried)
{
    must_be_the_form();
    if (!is_tried)
        return;
    put_up(bad_length, bad, bad_length, tail_length);
    try_resume();
}

static int in_memory(size_t at) { return at >= field_at(1) + HEAD && at < field_at(2); }

/* The next place; in the memory, where all are alike, few are taken. */
static size_t next_place(size_t at)
{
    size_t next = at + (in_memory(at) ? (size_t)between(1, 99) : 1);

    return in_memory(at) && !in_memory(next) ? field_at(2) : next;
}

/* Every byte changed to every other value. */
static void sweep_values(void)
{
    for (size_t at = 0; at < good_length; at = next_place(at))
        for (int value = 0; value < 256; value++) {
            if (value == good[at])
                continue;
            begin("a small form");
            change_at(at, value);
            try_small(one_in((int)every));
        }
}

/* Cut at every length: the form ends there, or the input does. */
static void sweep_lengths(void)
{
    for (size_t at = 0; at < good_length; at++) {
        begin("");
        bad_length = at;
        SAY_WHAT("a small form that ends after %lu bytes", (unsigned long)at);
        try_small(one_in((int)every));
        if (!one_in((int)every))
            continue;
        put_up(good_length, good, at, 0);
        SAY_WHAT("a small form, the input cut after %lu bytes", (unsigned long)(4 + at));
        try_resume();
    }
}

/* The ends of every range of the sensor's form, and the heads of its fields. */
static void sweep_ends(int n)
{
    static const int ends[][3] = { { 2, 0, 15 }, { 2, 0, 16 }, { 2, 1, 1 }, { 2, 1, 2 }, { 2, 2, 255 }, { 2, 3, 1 }, { 2, 3, 2 },
                                   { 3, 0, 9 }, { 3, 0, 10 } };
    const int pairs[][2] = { { 2 * n, 3 }, { 2 * n, 4 }, { 2 * n + 1, 0 }, { 2 * n + 1, 5 }, { 2 * n + 1, 6 }, { 2 * n + 2, 1 },
                             { 2 * n + 3, 1 } };

    for (int i = 0; i < 9 + 7 + HEAD * fields(); i++) {
        int head = i - 9 - 7;
        size_t at = field_at(head / HEAD) + (size_t)head % HEAD;

        begin("a small form");
        if (i < 9)
            change_at(field_at(ends[i][0]) + HEAD + (size_t)ends[i][1], ends[i][2]);
        else if (head < 0)
            change_at(HEAD + (size_t)pairs[i - 9][0], pairs[i - 9][1]);
        else
            change_at(at, good[at] + 1);
        try_small(1);
    }
}

/* A field, if it is there, under another tag. */
static void sweep_tag(int tag)
{
    static const int others[] = { 0, 4, 5, 6, 7 };

    for (int i = 0; i < 5 && has_tag(tag); i++) {
        if (others[i] == tag)
            continue;
        begin("a small form");
        change_at(field_at(place_of(tag)), others[i]);
        try_small(1);
    }
}

/* Tag 5, of as many sensors as there are: of every sort of numbers, one too long
 * or too short, left out, twice, with something behind it, before tag 4; and
 * with each of bits 5:0 of a configuration turned over. */
static void sweep_pending(void)
{
    static const unsigned char ones[][3] = { { 0, 0 }, { 1, 0 }, { 0, 1 }, { 1, 1 }, { 2, 0 }, { 0, 2 }, { 2, 1 }, { 1, 2 }, { 255, 1 } };
    int sensors = sensors_in_form(), sorts = (int)(sizeof ones / sizeof ones[0]);
    size_t at = field_at(place_of(5)), many = whole_length(5);

    for (int i = 0; i < 3 * sorts; i++) {
        begin("a small form");
        if (sensors + i % 3 > 0)
            put_field(5, ones[i / 3], sensors + i % 3 - 1);
        try_small(1);
    }
    for (int i = 0; i < 12 * sensors; i++) {
        begin("a small form");
        if (i % 2)
            put_field(5, ones[3], sensors);
        change_mode(i / 12, i / 2 % 6);
        try_small(1);
    }
    for (int tag = 0; tag <= 8; tag++) {
        begin("a small form");
        put_behind(tag, tag % 2 ? HEAD : 1);
        try_small(1);
    }
    begin("a small form");
    leave_out(5);
    try_small(1);
    sweep_tag(5);
    begin("a small form, its field 5 twice");
    splice(at, 0, good + at, many);
    try_small(1);
    begin("a small form, its field 5 before field 4");
    splice(at, many, NULL, 0);
    splice(field_at(3), 0, good + at, many);
    try_small(1);
}

/* The same of tag 6, whose numbers are tried under every protection of the first
 * older module: with a bit that it does not have, and without the one that it must
 * have; and its half. */
static void sweep_older(void)
{
    static const unsigned char bits[][3] = { { 0, 0 }, { 1, 0 }, { 2, 0 }, { 3, 0 }, { 0, 1 }, { 0, 2 }, { 0, 3 }, { 1, 1 }, { 2, 2 },
                                             { 3, 1 }, { 1, 3 }, { 4, 0 }, { 0, 4 }, { 5, 1 }, { 2, 6 }, { 130, 0 }, { 0, 130 }, { 255, 2 } };
    static const int blocks[] = { 0, 1, 2, 3, 4, 8, 9, 16 };
    int modules = in_form(OLDER), sorts = (int)(sizeof bits / sizeof bits[0]);

    for (int i = 0; i < 3 * sorts; i++) {
        begin("a small form");
        if (modules + i % 3 > 0)
            put_field(6, bits[i / 3], modules + i % 3 - 1);
        try_small(i / 3 < 3 || (modules > 0 && i % 3 == 1));
    }
    for (int i = 0; modules > 0 && i < 4 * 8; i++) {
        begin("a small form");
        put_field(6, bits[i % 4 + (modules > 1 ? 6 : 0)], modules);
        change_at(four_at(slot_in_form(OLDER, 0)), blocks[i / 4]);
        try_small(1);
    }
    for (int half = 0; modules > 0 && half <= 2; half++) {
        begin("a small form");
        change_at(four_at(slot_in_form(OLDER, modules - 1)) + 1, half);
        try_small(1);
    }
    for (int i = 0; i < 4 * SLOTS; i++) {
        if (kind_in_form(i / 4) == ABSENT)
            continue;
        begin("a small form");
        change_kind(i / 4, i % 4);
        try_small(1);
    }
    for (int where = 1; whole_length(6) > 0 && where <= 6; where++) {
        begin("a small form");
        move_six(where);
        try_small(1);
    }
    begin("a small form");
    leave_out(6);
    try_small(1);
    begin("a small form");
    store_all();
    try_small(1);
    sweep_tag(6);
}

/* The first bytes of an input. */
static void sweep_first(void)
{
    for (size_t many = 0; many <= 5; many++) {
        put_up(good_length, good, good_length, 0);
        length = many;
        SAY_WHAT("the input cut after %lu bytes", (unsigned long)many);
        try_resume();
    }
}

static void sweep_announced(void)
{
    static const unsigned long lengths[] = { 0, 1, MOST + 1, 65534, 65535, 65536, 65537, 0x00FFFFFF, 0x01000000, 0x7FFFFFFF,
                                             0x80000000, 0xFFFF0000, 0xFFFFFFFF };

    for (int i = 0; i < (int)(sizeof lengths / sizeof lengths[0]); i++)
        try_announced(lengths[i], good_length);
    try_longest();
}

/* Sensors in which a change is pending, and those in which one could, and that
 * are not asserted. */
static int count_pins(int *others)
{
    int many = 0;

    *others = 0;
    for (int n = 0; n < SLOTS; n++) {
        many += bus[n].pending;
        *others += can_pend(bus[n].reg[1]) && !is_asserted(&bus[n]);
    }
    return many;
}

/* Of two sensors a change is pending in one, and not in the other, where it could
 * be.  Of a bench with older modules the first and the last are not alike, and
 * there is a tag 6; beside a sensor, a tag 5. */
static int is_wanted(void)
{
    int others, pending = count_pins(&others), first = 0, last = SLOTS - 1;

    if (slots_of(MEMORY_WITH_SENSOR) == 2)
        return pending == 1 && others == 1;
    if (slots_of(OLDER) == 0)
        return 1;
    while (bus[first].kind != OLDER)
        first++;
    while (bus[last].kind != OLDER)
        last--;
    if (first < last && older_bits(&bus[first]) == older_bits(&bus[last]))
        return 0;
    return any_older_bits() && any_pending() == (slots_of(MEMORY_WITH_SENSOR) > 0);
}

/* A bench of this setup, whose form is the good one, and a look at it.  What was
 * tried has gone over the bench. */
static void set_up_small(const unsigned char pairs[SETUP], int whole)
{
    do
        stir(pairs);
    while (!is_wanted());
    keep_form();
    tail_length = 0;
    look(whole);
}

static void sweep_small(const unsigned char pairs[SETUP], int first)
{
    set_up_small(pairs, 1);
    begin("a small form as it is");
    try_small(1);
    set_up_small(pairs, 0);
    if (number == 1)
        sweep_ends(first);
    sweep_pending();
    sweep_older();
    sweep_values();
    sweep_lengths();
}

enum { SMALL = 6, PLACES = 3 };   /* benches, and slots of them */

/* No slot; a sensor; a memory and a sensor; two sensors, one of which has a
 * change pending; an older module before a memory; a sensor with a change pending
 * between two older modules. */
static void sweep(long wanted)
{
    static const unsigned char kinds[SMALL][PLACES] = {
        { ABSENT }, { MEMORY_WITH_SENSOR }, { MEMORY, MEMORY_WITH_SENSOR }, { MEMORY_WITH_SENSOR, MEMORY_WITH_SENSOR },
        { OLDER, MEMORY }, { OLDER, MEMORY_WITH_SENSOR, OLDER } };
    unsigned char pairs[SMALL][SETUP] = { { 0 } };
    int first = below(6), second = between(first + 1, 6), third = between(second + 1, 7);
    const int slots[PLACES] = { first, second, third };
    unsigned char ticks = (unsigned char)between(1, 5);

    for (int i = 0; i < SMALL * PLACES; i++) {
        unsigned char *pair = pairs[i / PLACES] + 2 * slots[i % PLACES];

        pair[0] = kinds[i / PLACES][i % PLACES];
        pair[1] = pair[0] == ABSENT ? 0 : ticks;
    }
    every = wanted == 0 || wanted > ABOUT_ALL ? 1 : ABOUT_ALL / wanted;
    number = 0;                   /* no run any more */
    sweep_phases();
    for (number = 0; number < SMALL; number++)
        sweep_small(pairs[number], first);
    sweep_first();
    sweep_announced();
}

/* ---- All of it --------------------------------------------------------------------- */

static void sum_up(void)
{
    long *of_save = by_status[0], *of_resume = by_status[1];

    clear_how_far();
    printf("resave: %ld saves (%ld forms, %ld R8, %ld short or R5), %ld resumed (%ld whole, %ld R10, %ld short), all right\n",
           of_save[0] + of_save[1] + of_save[2], of_save[0], of_save[1], of_save[2],
           of_resume[0] + of_resume[1] + of_resume[2], of_resume[0], of_resume[1], of_resume[2]);
}

int main(int count, char **words)
{
    unsigned long long seed;

    if (count != 7 && count != 9) {
        fputs("usage: resave COUNT TRIES SEED DIR SAVE RESUME [UNSEEN-SAVE UNSEEN-RESUME]\n", stderr);
        return 2;
    }
    seed = strtoull(words[3], NULL, 10) * 1000003ULL;
    folder = words[4];
    saver[0] = words[5];
    resumer[0] = words[6];
    if (count == 9) {
        saver[1] = words[7];
        resumer[1] = words[8];
    }
    signal(SIGPIPE, SIG_IGN);     /* a program that ends early */
    for (number = 1; number <= atol(words[1]); number++) {
        seed_with(seed + (unsigned)number);
        one_run();
    }
    seed_with(seed);
    sweep(atol(words[2]));
    sum_up();
    return 0;
}
