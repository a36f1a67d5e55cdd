/*
 * Makes captures, gives them to the program `capture`, and judges what it says
 * of them; tests/capture/random calls it.  Written from the rules of captures,
 * on the second opinion's model; no line of it comes from the crates.
 *
 *   recapture run COUNT SEED DIR SEEN [UNSEEN]
 *       From each of the scripts DIR/1.script to DIR/COUNT.script makes a run,
 *       with the second opinion's answers, and of it some sixteen captures,
 *       which the command line SEEN checks.  UNSEEN is the same program
 *       without a status of its own: most captures then go to that.  A fault
 *       is told in a sentence, with status 1; DIR/input and DIR/said are
 *       what the program was given and what it said.  Else one line sums up.
 *
 *   recapture take SCRIPT CAPTURE
 *       From the script on standard input makes SCRIPT, the same without the
 *       records that are refused, and CAPTURE, its run.  For bench/capture.
 */
#define JUDGE "recapture"
#include "capture.h"
#include "chance.h"
#include "judge.h"

enum { NONE = -1, SEEN_OF = 41 };  /* one in so many goes to SEEN */

/* ---- A run, taken as a capture ------------------------------------------- */

static unsigned char *run;        /* it agrees, up to the first refused record */
static int total;                 /* its records */
static int refused;               /* the first refused record; `total` if none */

static unsigned char *record_of(unsigned char *bytes, int n) { return bytes + HEAD + RECORD * (size_t)n; }

/* The run of a script that starts with this memory.  Of the records that are
 * refused only those are taken that come when `from` others have: they change
 * nothing, so that the other answers stay as they are. */
static void take_run(const unsigned char *script, size_t script_length, const unsigned char *start, int from)
{
    size_t room = HEAD + RECORD * (script_length / 4);

    free(run);
    run = malloc(room);
    memcpy(run, script, SETUP);
    memcpy(run + SETUP, start, sizeof memory);
    setup(run);
    memcpy(memory, start, sizeof memory);
    total = 0;
    refused = NONE;
    for (size_t i = SETUP; i + 4 <= script_length; i += 4) {
        struct answer a = answered(script + i);
        unsigned char *r = record_of(run, total);

        if (a.code == REFUSED && total < from)
            continue;
        if (a.code == REFUSED && refused == NONE)
            refused = total;
        memcpy(r, script + i, 4);
        r[4] = (unsigned char)a.code;
        r[5] = (unsigned char)(a.code >= DATA ? a.byte : below(256));
        total++;
    }
    if (refused == NONE)
        refused = total;
}

/* The capture in hand is the run again. */
static void begin(const char *words)
{
    length = HEAD + RECORD * (size_t)total;
    memcpy(input, run, length);
    SAY_WHAT("%s", words);
}

/* ---- What is to be said, by the rules alone ------------------------------- */

/* A captured answer as the script writes it. */
static void write_answer(char text[5], int code, int byte)
{
    static const char *const plain[] = { "-", "A", "N" };

    if (code <= NACK)
        strcpy(text, plain[code]);
    else if (code == DATA)
        sprintf(text, "D%02X", byte);
    else if (code == REFUSED)
        sprintf(text, "R%d", byte);
    else
        strcpy(text, "?");
}

/* What is to be said of the capture in hand.  Gives the status. */
static int judge(void)
{
    expect_nothing();
    if (length < SETUP)
        return expect_last("short\n", 2);
    if (!setup(input))
        return expect_last("R5\n", 2);
    if (length < HEAD)
        return expect_last("short\n", 2);
    memcpy(memory, input + SETUP, sizeof memory);
    for (size_t n = 0; HEAD + RECORD * (n + 1) <= length; n++) {
        const unsigned char *r = input + HEAD + RECORD * n;
        const char *model = play(r);
        int end = (int)strcspn(model, "\n");
        char captured[5], line[40];

        write_answer(captured, r[4], r[5]);
        if (model[0] == 'R' || strlen(captured) != (size_t)end || memcmp(model, captured, (size_t)end) != 0) {
            sprintf(line, "%lu %.*s %s\n", (unsigned long)n, end, model, captured);
            return expect_last(line, 1);
        }
    }
    if ((length - HEAD) % RECORD != 0)
        return expect_last("short\n", 2);
    return expect_last("OK\n", 0);
}

/* ---- Trying the capture in hand ------------------------------------------- */

static const char *seen, *unseen;
static long by_status[3];

/* Has the capture in hand checked.  `named` is the record that must be named
 * by what was done to the run: `total` for none, NONE where that is left to
 * the judge. */
static void try(int named)
{
    enum way way = one_in(3) ? IN_PIECES : AS_FILE;
    int status = judge(), is_seen;
    size_t many;
    char *said;

    begin_try("capture");
    is_seen = tries % SEEN_OF == 0 || unseen == NULL;
    by_status[status]++;
    if (named != NONE && (named == total ? status != 0 : status != 1 || strtol(want, NULL, 10) != named))
        WRONG("record %d was to be named, and this test itself says \"%.*s\"", named, (int)strcspn(want, "\n"), want);
    run_program(is_seen ? seen : unseen, way, 0, NULL);
    said = (char *)read_file("said", &many);
    must_say(said, many, way);
    must_end(is_seen ? status : 0);
    free(said);
}

/* ---- Captures made of a run ----------------------------------------------- */

/* How an answer is changed.  The first three can be done to every answer. */
enum { SORT, SORT_ALONE, UNKNOWN, DATA_BYTE, NUMBER, IGNORED, WAYS };
static const char *const ways[WAYS] = { "another sort", "another sort with the same byte", "an unknown code",
    "another data byte", "another refusal's number", "another ignored byte" };

static int any_sort(void) { return below(DATA_BYTE); }

/* Another byte: the least, the greatest, the next, the one that differs in the
 * highest bit alone, or any. */
static unsigned char other_than(unsigned char byte)
{
    int bytes[] = { 0x00, 0xFF, byte + 1, byte ^ 0x80, below(256) };
    unsigned char other = (unsigned char)ONE_OF(bytes);

    return other != byte ? other : byte ^ 1;
}

static int suits(int way, int code)
{
    switch (way) {
    case DATA_BYTE: return code == DATA;
    case NUMBER: return code == REFUSED;
    case IGNORED: return code < DATA;
    default: return 1;
    }
}

/* Changes an answer of the capture in hand: that of the record `at`, or of the
 * next that suits, round the end.  Gives the record, or NONE if none suits. */
static int change(int at, int way)
{
    for (int i = 0; i < total; i++, at = (at + 1) % total) {
        unsigned char *r = record_of(input, at);

        if (!suits(way, r[4]))
            continue;
        if (way == SORT || way == SORT_ALONE)
            r[4] = (unsigned char)((r[4] + 1 + below(4)) % 5);
        if (way == UNKNOWN)
            r[4] = (unsigned char)(one_in(2) ? 5 : between(5, 255));
        if (way != SORT_ALONE && way != UNKNOWN)
            r[5] = other_than(r[5]);
        ADD_WHAT(", record %d of %d with %s", at, total, ways[way]);
        return at;
    }
    return NONE;
}

static void try_change(int at, int way)
{
    int changed;

    begin("one answer changed");
    changed = change(at, way);
    try(changed == NONE || way == IGNORED || changed > refused ? refused : changed);
}

static void try_two_changes(void)
{
    begin("two answers changed");
    for (int i = 0; i < 2; i++) {
        int at = below(total);
        change(at, any_sort());
    }
    try(NONE);
}

/* The first so many bytes alone; in half of the captures one answer is
 * changed, wherever it is, or that of the last record that is still begun. */
static void try_cut(size_t at)
{
    int last = at > HEAD ? (int)((at - HEAD - 1) / RECORD) : 0;

    begin("");
    SAY_WHAT("cut after %lu bytes", (unsigned long)at);
    if (total > 0 && one_in(2)) {
        int changed = one_in(2) ? last : below(total);
        change(changed, any_sort());
    }
    length = at;
    try(NONE);
}

static size_t inside_memory(void)
{
    switch (below(3)) {
    case 0: return SETUP;
    case 1: return HEAD - 1;
    default: return (size_t)between(SETUP, HEAD - 1);
    }
}

/* A bad setup, and the whole of the rest, some or nothing of it; or not the
 * whole setup. */
static void try_bad_setup(void)
{
    begin("a bad setup");
    spoil_setup();
    switch (below(4)) {
    case 0: length = (size_t)between(1, SETUP - 1); break;
    case 1: case 2: length = inside_memory(); break;
    }
    try(NONE);
}

static void try_all(void)
{
    size_t whole_records;

    begin("the whole run");
    try(refused);
    if (total > 0) {
        for (int way = 0; way < WAYS; way++)
            try_change(below(total), way);
        try_change(0, any_sort());
        try_change(total - 1, any_sort());
        if (refused < total)
            try_change(refused, any_sort());
        try_two_changes();
        whole_records = (size_t)below(total);
        try_cut(HEAD + RECORD * whole_records + (size_t)between(1, RECORD - 1));
    }
    try_cut((size_t)below(SETUP));
    try_cut(inside_memory());
    try_cut(HEAD + RECORD * (size_t)below(total + 1));  /* between records */
    try_cut(4096 * (size_t)between(1, (HEAD + RECORD * total) / 4096));
    try_bad_setup();
}

/* ---- The two things that are asked for ------------------------------------ */

static void one_run(void)
{
    unsigned char start[sizeof memory];
    char name[40];
    size_t script_length;
    unsigned char *script;
    int from = 0;                 /* all refused records are taken */

    snprintf(name, sizeof name, "%d.script", number);
    script = read_file(name, &script_length);
    if (number % 2 == 0)
        from = (int)script_length;        /* none */
    else if (number % 4 == 3)
        from = below((int)script_length / 4);
    for (size_t i = 0; i < sizeof start; i++)
        start[i] = (unsigned char)below(256);
    take_run(script, script_length, start, from);
    free(script);
    try_all();
}

static void take(const char *script_name, const char *capture_name)
{
    unsigned char start[sizeof memory];
    size_t script_length;
    unsigned char *script = whole(stdin, &script_length);
    FILE *f;

    memset(start, 0xFF, sizeof start);    /* as a script starts */
    take_run(script, script_length, start, (int)script_length);
    f = fopen(script_name, "wb");
    if (f == NULL)
        die(script_name);
    fwrite(run, 1, SETUP, f);
    for (int n = 0; n < total; n++)
        fwrite(record_of(run, n), 1, 4, f);
    fclose(f);
    f = fopen(capture_name, "wb");
    if (f == NULL)
        die(capture_name);
    fwrite(run, 1, HEAD + RECORD * (size_t)total, f);
    fclose(f);
    printf("%d\n", total);
}

int main(int count, char **words)
{
    if (count == 4 && strcmp(words[1], "take") == 0) {
        seed_with(1);
        take(words[2], words[3]);
        return 0;
    }
    if ((count != 6 && count != 7) || strcmp(words[1], "run") != 0) {
        fputs("usage: recapture run COUNT SEED DIR SEEN [UNSEEN] | recapture take SCRIPT CAPTURE\n", stderr);
        return 2;
    }
    folder = words[4];
    seen = words[5];
    unseen = words[6];
    signal(SIGPIPE, SIG_IGN);     /* a program that ends early */
    for (number = 1; number <= atol(words[2]); number++) {
        seed_with(strtoull(words[3], NULL, 10) * 1000003ULL + (unsigned)number);
        one_run();
    }
    clear_how_far();
    printf("recapture: %ld captures (%ld agree, %ld differ, %ld short or refused), all right\n",
           tries, by_status[0], by_status[1], by_status[2]);
    return 0;
}
