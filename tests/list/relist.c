/*
 * Makes lists of events, gives them to the programs `list` and `batches`, and
 * judges what they say; tests/list/random calls it.  Written from the sentences
 * of request P6, on the second opinion's model; no line of it comes from the
 * crates.
 *
 *   relist COUNT SEED DIR SCRIPT LIST BATCHES [UNSEEN-LIST]
 *       Of each of the scripts DIR/1.script to DIR/COUNT.script, the command
 *       line SCRIPT says the lines.  LIST is given its first events, or others
 *       of them, as one list, with places enough or too few, cut, with a bad
 *       setup, too many; BATCHES the whole, cut into lists of all lengths.
 *       Then small lists, cut at every length, and lists about as long as
 *       LIST has room for: all of them, or fewer if COUNT is below 100.
 *
 * The unseen one is the same program without a status of its own: most inputs
 * then go to that.  A fault is told in a sentence, with status 1; DIR/input,
 * DIR/said and DIR/told are what the program was given and what it wrote to
 * standard output and standard error.  Else one line sums up.
 */
#define JUDGE "relist"
#include "model.h"
#include "chance.h"
#include "judge.h"

enum { SEEN_OF = 19 };            /* one in so many goes to the one with a status */
enum { ROOM = 4096 };             /* records of one list */
enum { HEAD = SETUP + 2 };        /* setup and number of places */
enum { MOST_PLACES = 65535 };

static const char *scripts, *lister[2], *batcher;  /* command lines; seen, unseen */
static long by_status[3], in_batches;

static const char too_many[] = "list: more than 4096 records in one list\n";

/* ---- What is to be said, by the rules alone --------------------------------- */

/* What `list` owes to the input: its lines, and a sentence on standard error.
 * Gives the status.  What is asked first: is the setup there, is it good, are
 * the records too many, is something cut, are the places too few. */
static int judge_list(const char **sentence)
{
    size_t behind, events, places;

    expect_nothing();
    *sentence = "";
    if (length < SETUP)
        return expect_last("short\n", 2);
    if (!setup(input))
        return expect_last("R5\n", 2);
    behind = length < HEAD ? 0 : length - HEAD;
    events = behind / 4;
    if (events > ROOM) {
        *sentence = too_many;
        return 2;
    }
    if (length < HEAD || behind % 4 != 0)
        return expect_last("short\n", 2);
    places = 256u * input[SETUP] + input[SETUP + 1];
    if (places < events)
        return expect_last("R9\n", 1);
    expect_records(input + HEAD, events);
    for (size_t i = events; i < places; i++)
        expect(".\n", 2);
    return 0;
}

/* What `batches` owes to the input: the lines of its lists, as far as they are
 * whole and not too long.  Gives the sentence on standard error. */
static const char *judge_batches(void)
{
    size_t at = SETUP;

    expect_nothing();
    if (length < SETUP) {
        expect_last("short\n", 0);
        return "";
    }
    if (!setup(input)) {
        expect_last("R5\n", 0);
        return "";
    }
    while (at + 2 <= length) {
        size_t events = 256u * input[at] + input[at + 1];

        if (events > ROOM)
            return too_many;
        if (at + 2 + 4 * events > length)
            break;
        expect_records(input + at + 2, events);
        at += 2 + 4 * events;
    }
    if (at < length)
        expect_last("short\n", 0);
    return "";
}

/* ---- Trying the input -------------------------------------------------------- */

/* Runs the command line on the input, and holds what it said and how it ended
 * against what is due; of standard error, unless it is NULL, too. */
static void must_do(const char *name, const char *command, const char *sentence, int status)
{
    enum way way = one_in(3) ? IN_PIECES : AS_FILE;
    char *said;
    size_t many;

    begin_try(name);
    run_program(command, way, 0, NULL);
    if (sentence != NULL)
        must_tell(sentence);
    said = (char *)read_file("said", &many);
    must_say(said, many, way);
    must_end(status);
    free(said);
}

static void try_list(void)
{
    const char *sentence;
    int status = judge_list(&sentence);
    int unseen = lister[1] != NULL && tries % SEEN_OF != 0;

    by_status[status]++;
    must_do("list", lister[unseen], sentence, unseen ? 0 : status);
}

static void try_batches(void)
{
    const char *sentence = judge_batches();

    in_batches++;
    must_do("batches", batcher, sentence, 0);
}

/* ---- Inputs made of a script's records ----------------------------------------- */

static unsigned char *script;
static size_t script_length;
static int total;                 /* its records */

static int least(int a, int b) { return a < b ? a : b; }

/* A list of so many of its records, from this one on, again from the front
 * where they do not suffice. */
static void put_up(int from, int events, int places)
{
    memcpy(input, script, SETUP);
    input[SETUP] = (unsigned char)(places >> 8);
    input[SETUP + 1] = (unsigned char)places;
    length = HEAD;
    for (int i = 0; i < events; i++) {
        memcpy(input + length, script + SETUP + 4 * ((from + i) % total), 4);
        length += 4;
    }
    SAY_WHAT("%d events from the %d. on with %d places", events, from + 1, places);
}

/* Any number of places: mostly about as many as there are events. */
static int some_places(int events)
{
    static const int others[] = { 0, 1, 255, 256, 257, 4095, 4096, 4097, 65535 };

    switch (below(8)) {
    case 0: return ONE_OF(others);
    case 1: return below(MOST_PLACES + 1);
    case 2: return below(events + 1);
    case 3: return least(2 * events, MOST_PLACES);
    case 4: return events + 1;
    case 5: return events > 0 ? events - 1 : 0;
    case 6: return events + below(20);
    default: return events;
    }
}

/* Any number of records that one list may have, most often the handheld's. */
static int some_events(void)
{
    static const int often[] = { 0, 1, 2, 3, 63, 64, 64, 65, 255, 256, 257 };

    return total == 0 ? 0 : one_in(3) ? least(total, ROOM) : one_in(2) ? ONE_OF(often) : below(least(total, ROOM) + 1);
}

static void cut_somewhere(void)
{
    size_t was = length;

    switch (below(3)) {
    case 0: length = (size_t)between(0, HEAD + 5); break;
    case 1: length -= (size_t)between(1, 3); break;
    default: length = (size_t)below((int)length + 1); break;
    }
    if (length > was)
        length = was;
    ADD_WHAT(", cut after %lu bytes", (unsigned long)length);
}

static void give_bad_setup(void)
{
    spoil_setup();
    ADD_WHAT(", a bad setup");
}

/* Lists of this script: as they should be, and one that is not. */
static void try_lists(void)
{
    int events = least(total, ROOM);

    put_up(0, events, events);
    try_list();
    put_up(0, events, between(events, one_in(3) ? MOST_PLACES : events + 9));
    try_list();
    for (int i = 0; i < 3; i++) {
        events = some_events();
        put_up(total == 0 ? 0 : below(total), events, some_places(events));
        try_list();
    }
    events = total > 0 && one_in(5) ? between(ROOM - 2, ROOM + 90) : some_events();
    put_up(0, events, some_places(events));
    if (!one_in(3))
        cut_somewhere();
    if (one_in(5))
        give_bad_setup();
    try_list();
}

/* ---- A script cut into lists ---------------------------------------------------- */

static int a_length(int sort)
{
    static const int ends[] = { 0, 1, 2, 63, 64, 65 };

    switch (sort) {
    case 0: return 1;
    case 1: return 64;
    case 2: return below(ROOM + 1);
    case 3: return below(200);
    default: return one_in(4) ? below(200) : ONE_OF(ends);
    }
}

static void put_up_batches(int sort)
{
    int lists = 0;

    memcpy(input, script, SETUP);
    length = SETUP;
    for (int at = 0; at < total; lists++) {
        int many = least(a_length(sort), total - at);

        input[length] = (unsigned char)(many >> 8);
        input[length + 1] = (unsigned char)many;
        memcpy(input + length + 2, script + SETUP + 4 * at, 4 * (size_t)many);
        length += 2 + 4 * (size_t)many;
        at += many;
    }
    SAY_WHAT("%d events in %d lists", total, lists);
}

/* One more list, of so many ticks. */
static void add_ticks(int many, int told)
{
    input[length] = (unsigned char)(told >> 8);
    input[length + 1] = (unsigned char)told;
    for (int i = 0; i < 4 * many; i++)
        input[length + 2 + (size_t)i] = (unsigned char)(i % 4 == 0 ? TICK : 0);
    length += 2 + 4 * (size_t)many;
    ADD_WHAT(", and one of %d, told as %d", many, told);
}

static void try_script_in_lists(void)
{
    put_up_batches(below(8));
    try_batches();
    if (!one_in(3))
        return;
    put_up_batches(4);
    if (one_in(4))
        give_bad_setup();
    else
        cut_somewhere();
    try_batches();
}

/* ---- Runs -------------------------------------------------------------------- */

/* The script program says of the script what the model says: so the lines that
 * are due below are also its own. */
static void try_script(void)
{
    memcpy(input, script, script_length);
    length = script_length;
    expect_nothing();
    setup(script);
    expect_records(script + SETUP, (size_t)total);
    SAY_WHAT("%d events", total);
    must_do("script", scripts, NULL, 0);
}

static void take_script(const char *name)
{
    script = read_file(name, &script_length);
    total = (int)(script_length - SETUP) / 4;
}

static void one_run(void)
{
    char name[40];

    snprintf(name, sizeof name, "%d.script", number);
    take_script(name);
    try_script();
    try_lists();
    try_script_in_lists();
    free(script);
}

/* ---- Small lists, and the longest ------------------------------------------------ */

static int every;                 /* one in so many is tried */

static void try_some(void)
{
    if (!one_in(every))
        return;
    if (one_in(10))
        give_bad_setup();
    try_list();
}

/* Three events, cut at every length. */
static void sweep_small(void)
{
    static const int places[] = { 0, 1, 2, 3, 4, 256, 768, 65535 };

    for (int i = 0; i < (int)(sizeof places / sizeof places[0]); i++)
        for (size_t many = 0; many <= HEAD + 12; many++) {
            put_up(0, 3, places[i]);
            length = many;
            SAY_WHAT("%lu bytes of a list of 3 events with %d places", (unsigned long)many, places[i]);
            try_some();
        }
}

/* About as many events as there is room for, and one to three bytes more. */
static void sweep_long(void)
{
    static const int events[] = { ROOM - 1, ROOM, ROOM + 1, ROOM + 2, 2 * ROOM };

    for (int i = 0; i < (int)(sizeof events / sizeof events[0]); i++)
        for (int more = 0; more < 4; more++)
            for (int sort = 0; sort < 4; sort++) {
                int places = sort == 0 ? 0 : sort == 1 ? events[i] - 1 : sort == 2 ? events[i] : MOST_PLACES;

                put_up(0, events[i], places);
                memset(input + length, TICK, (size_t)more);
                length += (size_t)more;
                SAY_WHAT("%d events and %d bytes with %d places", events[i], more, places);
                try_some();
            }
}

/* The same behind and before others, on the same bench. */
static void sweep_batches(void)
{
    static const int events[] = { ROOM - 1, ROOM, ROOM + 1, ROOM + 2 };

    total = 64;
    for (int i = 0; i < 5; i++) {
        int many = i < 4 ? events[i] : ROOM;

        put_up_batches(4);
        add_ticks(many, i < 4 ? many : MOST_PLACES);
        add_ticks(1, 1);
        try_batches();
    }
}

static void sweep(int count)
{
    number = 0;                   /* no run any more */
    every = count >= 100 ? 1 : 100 / count;
    take_script("some.script");
    sweep_small();
    sweep_long();
    sweep_batches();
    free(script);
}

/* ---- All of it ------------------------------------------------------------------ */

static void sum_up(void)
{
    clear_how_far();
    printf("relist: %ld lists (%ld taken, %ld R9, %ld short, R5 or too many), %ld scripts in lists, all right\n",
           by_status[0] + by_status[1] + by_status[2], by_status[0], by_status[1], by_status[2], in_batches);
}

int main(int count, char **words)
{
    unsigned long long seed;
    int runs;

    if (count != 7 && count != 8) {
        fputs("usage: relist COUNT SEED DIR SCRIPT LIST BATCHES [UNSEEN-LIST]\n", stderr);
        return 2;
    }
    runs = (int)atol(words[1]);
    seed = strtoull(words[2], NULL, 10) * 1000003ULL;
    folder = words[3];
    scripts = words[4];
    lister[0] = words[5];
    batcher = words[6];
    if (count == 8)
        lister[1] = words[7];
    signal(SIGPIPE, SIG_IGN);     /* a program that ends early */
    for (number = 1; number <= runs; number++) {
        seed_with(seed + (unsigned)number);
        one_run();
    }
    seed_with(seed);
    sweep(runs > 0 ? runs : 1);
    sum_up();
    return 0;
}
