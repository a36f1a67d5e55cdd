/*
 * Makes requests to the program `plan`, and judges its plans; tests/plan/random
 * calls it.  Written from the sentences of request P1, on the second opinion's
 * model; no line of it comes from the crates.  All files are in the folder DIR:
 *
 *   replan make COUNT SEED DIR   from N.prefix, a script: N.ask, the request
 *   replan judge COUNT DIR       from N.ask and what `plan` said to it, N.said
 *                                and N.status (? where it was not seen): is
 *                                that right?  N.script is a script of the
 *                                bench, the plan and a reading of all 512
 *                                bytes (where the memory starts as FFh, since
 *                                a script's does)
 *   replan close COUNT DIR       N.first and N.second, what the two script
 *                                programs said to N.script: every byte of the
 *                                plan acknowledged, and the image in the end
 *
 * A fault is told in a sentence, with status 1; the file `wrong` then has its
 * number N.  `close` ends with the line that sums up.
 */
#include "request.h"
#include "chance.h"
#include "files.h"

static int number;                /* of the request in hand */

/* ---- Files --------------------------------------------------------------- */

/* The name of a file of the request in hand. */
static const char *named(const char *ending)
{
    static char name[40];

    snprintf(name, sizeof name, "%d.%s", number, ending);
    return name;
}

/* The whole of it, or NULL where there is none. */
static unsigned char *read_named(const char *ending, size_t *length)
{
    FILE *f = fopen(path(named(ending)), "rb");
    unsigned char *bytes;

    if (f == NULL)
        return NULL;
    bytes = whole(f, length);
    fclose(f);
    return bytes;
}

static void give_up(void)
{
    FILE *f = open_file("wrong", "w");

    fprintf(f, "%d\n", number);
    fclose(f);
    exit(1);
}

#define WRONG(...) \
    (printf("replan: request %d: ", number), printf(__VA_ARGS__), putchar('\n'), give_up())

static unsigned char *must_read(const char *ending, size_t *length)
{
    unsigned char *bytes = read_named(ending, length);

    if (bytes == NULL)
        WRONG("there is no file %d.%s", number, ending);
    return bytes;
}

/* ---- Making a request ---------------------------------------------------- */

static unsigned char ask[1 << 20];
static size_t asked;              /* bytes in it */

/* A record at the end of the request, which the bench feels. */
static void add(int kind, int slot, int value)
{
    unsigned char record[4] = { (unsigned char)kind, (unsigned char)slot, (unsigned char)(value >> 8), (unsigned char)value };

    memcpy(ask + asked, record, 4);
    asked += 4;
    play(record);
}

static void add_ticks(int many)
{
    while (many-- > 0)
        add(TICK, 0, 0);
}

/* Of this page of the slot, in the half that stands, some bytes; no stop. */
static void open_write(int n)
{
    add(START, 0, 0);
    add(BYTE, 0, 0xA0 + 2 * n);
    add(BYTE, 0, below(256));
    for (int many = below(18); many > 0; many--)
        add(BYTE, 0, below(256));
}

static void open_order(int n)
{
    static const int codes[] = { 0x62, 0x68, 0x6A, 0x60, 0x62, 0x68, 0x6A, 0x60, 0x66 };

    add(VOLTAGE, n, 1);
    add(START, 0, 0);
    add(BYTE, 0, codes[below(9)]);
    for (int many = one_in(6) ? below(4) : 2; many > 0; many--)
        add(BYTE, 0, below(256));
}

/* The lasting form of an older module, as it is also heard from half commands
 * with bytes behind them; and perhaps its pin. */
static void open_lasting(int n)
{
    if (one_in(4))
        add(WRITE_PROTECT, n, below(2));
    if (below(3))
        add(VOLTAGE, n, 0);
    add(START, 0, 0);
    add(BYTE, 0, 0x60 + 2 * n);
    for (int many = one_in(3) ? below(4) : 2; many > 0; many--)
        add(BYTE, 0, below(256));
}

static void open_read(int n)
{
    add(START, 0, 0);
    add(BYTE, 0, 0xA1 + 2 * n);
    for (int many = below(4); many > 0; many--)
        add(READ, 0, 1);
}

static void open_half(void)
{
    add(START, 0, 0);
    add(BYTE, 0, one_in(2) ? 0x6C : 0x6E);
    if (one_in(4))
        add(BYTE, 0, below(256));
}

/* An older module, if there is one. */
static int a_module(void)
{
    int n = below(SLOTS);

    for (int tries = 0; tries < SLOTS && bus[n].kind != OLDER; tries++)
        n = (n + 1) % SLOTS;
    return n;
}

/* A cycle that power cuts, mostly while it runs. */
static void cut_cycle_of(int n)
{
    if (bus[n].kind == OLDER && one_in(2))
        open_lasting(n);
    else if (one_in(3))
        open_order(n);
    else
        open_write(n);
    add(STOP, 0, 0);
    add_ticks(one_in(2) ? 0 : below(3));
    add(POWER, 0, a_number());
}

/* The last that happens on the bench before the plan is asked for: cycles
 * that still run or were cut, exchanges that stand open, the half the other
 * way. */
static void last_move(int n)
{
    int other = below(SLOTS);
    int mine = no_such_slot(n) || one_in(4) ? other : n;

    if (one_in(2))
        add_ticks(5);             /* so that all slots listen */
    switch (below(13)) {
    case 0: case 1: open_write(mine); break;
    case 2: case 3: case 4: open_order(mine % SLOTS); break;
    case 5: open_half(); break;
    case 6: open_read(mine); break;
    case 7: add(START, 0, 0); break;
    case 8: one_in(3) ? add(POWER, 0, a_number()) : add(TIMEOUT, 0, 0); break;
    case 9: case 10: cut_cycle_of(mine % SLOTS); break;
    case 11: open_lasting(a_module()); break;
    case 12: cut_cycle_of(a_module()); break;
    }
    if (below(3)) {
        add(STOP, 0, 0);
        add_ticks(one_in(2) ? 0 : below(6));
    }
}

/* Mostly a slot that something is going on in. */
static int busy(int n)
{
    const struct slot *s = &bus[n];

    for (int b = 0; b < BLOCKS; b++)
        if (s->is_protected[b])
            return 1;
    return s->ticks_left > 0 || s->half == 1 || (s->doing != IDLE && s->doing != DEAF);
}

static int choose_slot(void)
{
    static const int above[] = { 8, 8, 9, 15, 16, 128, 255 };
    int n = 0;

    if (one_in(30))
        return above[below(7)];
    for (int tries = 0; tries < 20; tries++) {
        n = below(SLOTS);
        if (no_such_slot(n) ? one_in(200) : no_plan_for(n) ? one_in(20) : busy(n) || one_in(8))
            break;
    }
    return n;
}

static void alter(unsigned char *page)
{
    int many = one_in(3) ? PAGE : 1 + below(3);

    while (many-- > 0)
        page[below(PAGE)] ^= (unsigned char)(1 + below(255));
}

/* An image: the slot's bytes after five ticks (or, now and then, before them),
 * with none, one, few, many or all pages altered, mostly not in the blocks
 * that are protected then, sometimes only in those whose protection changes. */
static void choose_image(int n, unsigned char *image)
{
    const struct slot *s = &bus[n];
    unsigned char before[SLOT_BYTES];
    const unsigned char *after = memory + SLOT_BYTES * n;
    int was[BLOCKS];
    int share, changing = one_in(3), part = below(6), heedless = one_in(4);

    memcpy(before, after, SLOT_BYTES);
    memcpy(was, s->is_protected, sizeof was);
    for (int i = 0; i < 5; i++)
        for (int k = 0; k < SLOTS; k++)
            tick(k);
    memcpy(image, one_in(5) ? before : after, SLOT_BYTES);
    switch (below(6)) {
    case 0: share = 0; break;
    case 1: share = 100; break;
    case 2: share = 50; break;
    default: share = 12; break;
    }
    for (int page = 0; page < PAGES; page++) {
        int changes = was[page / 8] != s->is_protected[page / 8];

        if (part < 2 && page / 16 != part)
            continue;             /* one half only */
        if (below(100) < share || (changing && changes && one_in(3)))
            alter(image + PAGE * page);
        if (s->is_protected[page / 8] && !heedless && !(changing && changes))
            memcpy(image + PAGE * page, after + PAGE * page, PAGE);
    }
    if (one_in(6)) {              /* one byte, wherever it is */
        memcpy(image, after, SLOT_BYTES);
        image[below(SLOT_BYTES)] ^= (unsigned char)(1 + below(255));
    }
}

/* A setup with a bad pair, or a request that is cut. */
static void spoil(void)
{
    if (one_in(2))
        ask[2 * below(SLOTS)] = (unsigned char)(4 + below(252));
    if (one_in(2))
        asked = (size_t)below(one_in(2) ? SETUP + 1 : (int)asked);
}

static void make_one(void)
{
    size_t length;
    unsigned char *prefix = must_read("prefix", &length);
    unsigned char image[SLOT_BYTES];
    int slot;
    FILE *f;

    memcpy(ask, prefix, SETUP);
    memset(ask + SETUP, 0xFF, HEAD - SETUP);
    if (!setup(ask) || length > sizeof ask / 2)
        WRONG("%d.prefix is no script to begin with", number);
    if (one_in(5)) {              /* another memory than a script's */
        for (int i = SETUP; i < HEAD; i++)
            ask[i] = (unsigned char)below(256);
        memcpy(memory, ask + SETUP, sizeof memory);
    }
    asked = HEAD;
    for (size_t i = SETUP; i + 4 <= length; i += 4, asked += 4) {
        memcpy(ask + asked, prefix + i, 4);
        play(prefix + i);
    }
    free(prefix);
    slot = choose_slot();
    for (int moves = below(4); moves > 0; moves--)
        last_move(slot);
    memset(image, below(256), sizeof image);
    if (slot < SLOTS)
        choose_image(slot, image);
    ask[HEAD - SLOT_BYTES - 1] = (unsigned char)slot;
    memcpy(ask + HEAD - SLOT_BYTES, image, SLOT_BYTES);
    if (one_in(40))
        spoil();
    f = open_file(named("ask"), "wb");
    fwrite(ask, 1, asked, f);
    fclose(f);
}

/* ---- Judging what was said ----------------------------------------------- */

enum { UNSEEN = -1 };            /* a status that was not seen */

static unsigned char plan[MOST_RECORDS][4];
static int planned, at;           /* the plan's records, and the next to look at */

/* "said" must be this line alone, and the status this. */
static void must_say(const char *line, int status, const char *said, size_t length, int ended)
{
    size_t n = strlen(line);

    if (length != n + 1 || memcmp(said, line, n) != 0 || said[n] != '\n')
        WRONG("%s alone was to be said, not \"%.*s\"", line, (int)strcspn(said, "\n"), said);
    if (ended != UNSEEN && ended != status)
        WRONG("%s was to come with status %d, not %d", line, status, ended);
}

static int digit(char c)
{
    return c >= '0' && c <= '9' ? c - '0' : c >= 'A' && c <= 'F' ? c - 'A' + 10 : -1;
}

/* The number of records on a line, then each as eight hex digits in capitals. */
static void read_plan(const char *said, size_t length)
{
    size_t i = 0;

    planned = 0;
    for (; i < length && said[i] >= '0' && said[i] <= '9' && planned <= MOST_RECORDS; i++)
        planned = 10 * planned + said[i] - '0';
    if (i == 0 || said[0] == '0' || i >= length || said[i++] != '\n')
        WRONG("the first line is no number, but \"%.*s\"", (int)strcspn(said, "\n"), said);
    if (planned > MOST_RECORDS)
        WRONG("%d records, and %d is the most", planned, MOST_RECORDS);
    if (length != i + 9 * (size_t)planned)
        WRONG("%d records are announced, and the lines are not so many", planned);
    for (int r = 0; r < planned; r++, i += 9) {
        for (int b = 0; b < 4; b++) {
            int high = digit(said[i + 2 * b]), low = digit(said[i + 2 * b + 1]);
            if (high < 0 || low < 0)
                WRONG("record %d is not eight hex digits in capitals", r + 1);
            plan[r][b] = (unsigned char)(16 * high + low);
        }
        if (said[i + 8] != '\n')
            WRONG("record %d does not end its line", r + 1);
    }
}

/* The next record has this kind, and nothing in its other cells but a byte's
 * value, which is given. */
static int next(int kind, const char *what)
{
    const unsigned char *r = plan[at];

    if (at == planned)
        WRONG("the plan ends where %s should come", what);
    if (r[0] != kind || r[1] != 0 || r[2] != 0 || (kind != BYTE && r[3] != 0))
        WRONG("record %d is %02X%02X%02X%02X, where %s should come", at + 1, r[0], r[1], r[2], r[3], what);
    at++;
    return r[3];
}

static int differs(const struct request *q, int page)
{
    return memcmp(memory + SLOT_BYTES * q->slot + PAGE * page, q->image + PAGE * page, PAGE) != 0;
}

/* One page write, the start and the control byte being read; gives the page. */
static int one_page(const struct request *q, int half, int last)
{
    int counter = next(BYTE, "the counter");
    int page = 16 * half + counter / PAGE;

    if (counter % PAGE != 0)
        WRONG("record %d: the write does not begin at a page's first byte", at);
    if (page <= last)
        WRONG("record %d: page %d comes after page %d", at, page, last);
    if (!differs(q, page))
        WRONG("record %d: page %d is written, and does not differ", at, page);
    for (int i = 0; i < PAGE; i++)
        if (next(BYTE, "a byte of the page") != q->image[PAGE * page + i])
            WRONG("record %d: byte %d of page %d is not the image's", at, i, page);
    next(STOP, "the stop of a page");
    for (int i = 0; i < bus[q->slot].length; i++)
        next(TICK, "a tick of the slot's cycle");
    return page;
}

/* The plan, record by record, on the bench as five ticks have left it. Gives
 * the number of pages. */
static int judge_order(const struct request *q)
{
    int half = bus[q->slot].half;
    int selected = 0;             /* just now, and no page since */
    int last = -1, pages = 0;
    int written[PAGES] = { 0 };

    at = 0;
    for (int i = 0; i < 5; i++)
        next(TICK, "one of the first five ticks");
    while (at < planned) {
        int control;

        next(START, "a start");
        control = next(BYTE, "a control byte");
        if (control == 0x6C || control == 0x6E) {
            next(STOP, "the stop of a half command");
            if (selected || half == (control == 0x6E))
                WRONG("record %d: a half is selected that need not be", at - 1);
            half = control == 0x6E;
            selected = 1;
            continue;
        }
        if (control != 0xA0 + 2 * q->slot)
            WRONG("record %d: the control byte is %02Xh", at, control);
        last = one_page(q, half, last);
        written[last] = 1;
        pages++;
        selected = 0;
    }
    if (selected)
        WRONG("a half is selected, and nothing is written in it");
    for (int page = 0; page < PAGES; page++)
        if (differs(q, page) && !written[page])
            WRONG("page %d differs and is not written", page);
    return pages;
}

/* The plan on the model, from the bench that five ticks have left: it comes to
 * the image, and does no more. */
static void judge_run(const struct request *q, int pages)
{
    static struct slot bus_before[SLOTS];
    static unsigned char memory_before[sizeof memory];
    const struct slot *s = &bus[q->slot];
    size_t mine = SLOT_BYTES * (size_t)q->slot;

    memcpy(bus_before, bus, sizeof bus);
    memcpy(memory_before, memory, sizeof memory);
    for (int i = 5; i < planned; i++) {
        const char *line = play(plan[i]);
        if (line[0] != (plan[i][0] == BYTE ? 'A' : '-'))
            WRONG("record %d of the plan is answered %.1s", i + 1, line);
        if (plan[i][0] == BYTE && s->doing == DEAF)
            WRONG("record %d of the plan is not acknowledged by the slot itself", i + 1);
    }
    if (memcmp(memory + mine, q->image, SLOT_BYTES) != 0)
        WRONG("the slot does not hold the image after the plan");
    memcpy(memory_before + mine, q->image, SLOT_BYTES);
    if (memcmp(memory, memory_before, sizeof memory) != 0)
        WRONG("bytes outside the slot have changed");
    for (int n = 0; n < SLOTS; n++) {
        const struct slot *a = &bus_before[n], *b = &bus[n];

        if (memcmp(a->is_protected, b->is_protected, sizeof a->is_protected) != 0)
            WRONG("the protection of slot %d has changed", n);
        if (a->permanent != b->permanent || a->write_protect != b->write_protect)
            WRONG("what slot %d has protected for ever, or its pin, has changed", n);
        if (a->high_voltage != b->high_voltage || a->pointer != b->pointer || memcmp(a->reg, b->reg, sizeof a->reg) != 0)
            WRONG("the voltage or the sensor of slot %d has changed", n);
        if (n != q->slot && a->counter != b->counter)
            WRONG("the counter of slot %d has changed", n);
        if (b->ticks_left != 0)
            WRONG("slot %d is in a write cycle after the plan", n);
        if (pages > 0 && b->kind != ABSENT && b->doing != IDLE)
            WRONG("slot %d is not idle after the plan", n);
    }
}

/* ---- The script of it all ------------------------------------------------ */

static void script_record(FILE *f, int kind, int value)
{
    unsigned char record[4] = { (unsigned char)kind, 0, 0, (unsigned char)value };

    fwrite(record, 1, 4, f);
}

/* Start, 6Ch or 6Eh, stop; start, control byte, 00h, start, control byte, 256
 * reads, stop. */
enum { BEFORE_READS = 8, AFTER_READS = 1 };

static void read_half_back(FILE *f, int slot, int half)
{
    script_record(f, START, 0);
    script_record(f, BYTE, half ? 0x6E : 0x6C);
    script_record(f, STOP, 0);
    script_record(f, START, 0);
    script_record(f, BYTE, 0xA0 + 2 * slot);
    script_record(f, BYTE, 0);
    script_record(f, START, 0);
    script_record(f, BYTE, 0xA1 + 2 * slot);
    for (int i = 0; i < 256; i++)
        script_record(f, READ, i < 255);
    script_record(f, STOP, 0);
}

static void write_script(const struct request *q)
{
    FILE *f;

    for (int i = 0; i < SLOTS * SLOT_BYTES; i++)
        if (q->memory[i] != 0xFF)
            return;
    f = open_file(named("script"), "wb");
    fwrite(q->setup, 1, SETUP, f);
    fwrite(q->records, 4, q->count, f);
    fwrite(plan, 4, (size_t)planned, f);
    read_half_back(f, q->slot, 0);
    read_half_back(f, q->slot, 1);
    fclose(f);
}

/* ---- One request, as judge and close see it ------------------------------ */

static void judge_one(void)
{
    struct request q;
    size_t length, said_length, status_length;
    unsigned char *in = must_read("ask", &length);
    char *said = (char *)must_read("said", &said_length);
    char *status = (char *)must_read("status", &status_length);
    int ended = status[0] == '?' ? UNSEEN : (int)strtol(status, NULL, 10);
    const char *none = take(in, length, &q);
    int pages;

    if (none != NULL) {
        must_say(none, 2, said, said_length, ended);
    } else if (no_plan_for(q.slot)) {
        must_say("R3", 1, said, said_length, ended);
    } else {
        int forbidden = 0;
        unsigned char a_tick[4] = { TICK };

        for (int i = 0; i < 5; i++)   /* judged after them */
            play(a_tick);
        for (int page = 0; page < PAGES; page++)
            if (differs(&q, page) && bus[q.slot].is_protected[page / 8])
                forbidden = 1;
        if (forbidden) {
            must_say("R7", 1, said, said_length, ended);
        } else {
            if (ended != UNSEEN && ended != 0)
                WRONG("a plan was to come with status 0, not \"%.*s\" with %d", (int)strcspn(said, "\n"), said, ended);
            read_plan(said, said_length);
            pages = judge_order(&q);
            judge_run(&q, pages);
            write_script(&q);
        }
    }
    free(in);
    free(said);
    free(status);
}

/* Line after line of what a script program said. */
static const char *line_at;

static const char *next_line(void)
{
    const char *line = line_at;

    line_at += strcspn(line, "\n");
    if (*line_at == 0)
        WRONG("the script program's answers end too early");
    line_at++;
    return line;
}

static void close_half(const struct request *q, int half)
{
    char want[4];

    for (int i = 0; i < BEFORE_READS; i++)
        next_line();
    for (int i = 256 * half; i < 256 * half + 256; i++) {
        const char *line = next_line();
        snprintf(want, sizeof want, "D%02X", q->image[i]);
        if (memcmp(line, want, 3) != 0 || line[3] != '\n')
            WRONG("byte %d is %.3s after the plan, and the image has %s", i, line, want);
    }
    for (int i = 0; i < AFTER_READS; i++)
        next_line();
}

static long all_pages, refused, plans;

static void close_one(void)
{
    struct request q;
    size_t length, said_length, script_length, first_length, second_length;
    unsigned char *in = must_read("ask", &length);
    char *said = (char *)must_read("said", &said_length);
    unsigned char *script = read_named("script", &script_length);

    plans++;
    if (said[0] < '0' || said[0] > '9') {
        refused++;
    } else {
        take(in, length, &q);
        read_plan(said, said_length);
        for (int i = 5; i < planned; i++)
            if (plan[i][0] == BYTE && (plan[i][3] & 0xF0) == 0xA0 && plan[i - 1][0] == START)
                all_pages++;
    }
    if (script != NULL) {
        unsigned char *first = must_read("first", &first_length);
        unsigned char *second = must_read("second", &second_length);

        if (first_length != second_length || memcmp(first, second, first_length) != 0)
            WRONG("the proved script program and the second opinion differ on %d.script", number);
        line_at = (const char *)first;
        for (size_t i = 0; i < q.count; i++)
            next_line();
        for (int i = 0; i < planned; i++) {
            const char *line = next_line();
            if (line[0] != (plan[i][0] == BYTE ? 'A' : '-') || line[1] != '\n')
                WRONG("the script program answers record %d of the plan with %.1s", i + 1, line);
        }
        close_half(&q, 0);
        close_half(&q, 1);
        if (*line_at != 0)
            WRONG("the script program says more than it was asked");
        free(first);
        free(second);
    }
    free(in);
    free(said);
    free(script);
}

int main(int count, char **words)
{
    int making = count == 5 && strcmp(words[1], "make") == 0;
    int judging = count == 4 && strcmp(words[1], "judge") == 0;
    int closing = count == 4 && strcmp(words[1], "close") == 0;

    if (!making && !judging && !closing) {
        fputs("usage: replan make COUNT SEED DIR | replan judge COUNT DIR | replan close COUNT DIR\n", stderr);
        return 2;
    }
    folder = words[count - 1];
    for (number = 1; number <= atol(words[2]); number++) {
        if (making) {
            seed_with(strtoull(words[3], NULL, 10) * 1000003ULL + (unsigned)number);
            make_one();
        } else if (judging) {
            judge_one();
        } else {
            close_one();
        }
    }
    if (closing)
        printf("replan: %ld plans (%ld pages, %ld refused), all right\n", plans, all_pages, refused);
    return 0;
}
