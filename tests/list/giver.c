/*
 * A plain giver of lists: what the programs `list` and `batches` do (request
 * P6), in C, on the second opinion's model.  It stands in for the proved
 * programs where the tests of lists are tried themselves: tests/list/planted
 * plants the faults of planted.txt in it, line by line (keep them in step), and
 * sees that tests/list/examples, tests/list/random or the tries of edges find
 * each.
 *
 *   giver list      a setup, the number of answer places, records to the end
 *   giver batches   a setup, then lists to the end, each with its number of
 *                   records in front, on the same bench
 *   giver tries     tries of lists, as the program edges has them in its
 *                   stdout; gives the same lines with answers of its own
 */
#include "model.h"

enum { ROOM = 4096, MOST_PLACES = 65535 };
static const char too_many[] = "list: more than 4096 records in one list\n";

static size_t take(unsigned char *to, size_t many) { return fread(to, 1, many, stdin); }
static size_t word_at(const unsigned char *at) { return 256u * at[0] + at[1]; }

static int last_line(const char *line, int status)
{
    puts(line);
    return status;
}

/* ---- One call --------------------------------------------------------------- */

static char answers[MOST_PLACES + 1][5];  /* what stands at each place, as a line */

static void set_answer(size_t place, const char *line)
{
    size_t many = strcspn(line, "\n");

    memcpy(answers[place], line, many);
    answers[place][many] = 0;
}

/* So many places that nothing has been written to. */
static void clear_answers(size_t places)
{
    for (size_t i = 0; i < places; i++)
        set_answer(i, ".");
}

static void show_answers(size_t places)
{
    for (size_t i = 0; i < places; i++)
        puts(answers[i]);
}

static size_t lent = sizeof memory;  /* bytes of the memory that are lent */

/* Of an older module (request P9): "another half or bit" than half and bit 0
 * is not, and the bit is "set if permanent". */
static int older_in_range(const struct slot *s)
{
    for (int b = 1; b < BLOCKS; b++)
        if (s->is_protected[b])
            return 0;
    if (s->half != 0)
        return 0;
    return !s->permanent || s->is_protected[0];
}

/* Whether the numbers that a try hands in are in their ranges. */
static int in_range(void)
{
    for (int n = 0; n < SLOTS; n++) {
        const struct slot *s = &bus[n];

        if (s->kind < ABSENT || s->kind > OLDER)
            return 0;
        if (s->kind == ABSENT ? s->length != 0 : s->length < 1 || s->length > 5)
            return 0;
        if (s->ticks_left > s->length || s->half > 1 || s->pointer >= REGISTERS)
            return 0;
        if (s->pending && !(s->kind == MEMORY_WITH_SENSOR && can_pend(s->reg[1])))
            return 0;             /* where no change can be */
        if (s->kind == OLDER && !older_in_range(s))
            return 0;
    }
    return 1;
}

/* The line of every event where memory or state is wrong, else none. */
static const char *line_of_all(void)
{
    if (lent != sizeof memory)
        return "R1";
    if (!in_range())
        return "R6";
    return NULL;
}

/* The events one by one, each with its answer at its place.  0, or 9 if there
 * are fewer places than events. */
static int events(const unsigned char *list, size_t count, size_t places)
{
    const char *all = line_of_all();

    if (places < count)
        return 9;
    for (size_t i = 0; i < count; i++) {
        const char *line = all != NULL ? all : play(list + 4 * i);

        set_answer(i, line);
    }
    return 0;
}

/* ---- list ------------------------------------------------------------------- */

static int list(void)
{
    static unsigned char records[4 * ROOM + 4];
    unsigned char pairs[SETUP], head[2];
    size_t asked, got, places;

    if (take(pairs, SETUP) < SETUP)
        return last_line("short", 2);
    if (!setup(pairs))
        return last_line("R5", 2);
    asked = take(head, 2);
    got = take(records, 4 * ROOM + 4);
    if (got == 4 * ROOM + 4) {    /* a whole record more than there is room for */
        fputs(too_many, stderr);  /* the sentence of `list` */
        return 2;  /* and its status */
    }
    if (asked < 2 || got % 4 != 0)
        return last_line("short", 2);
    places = word_at(head);
    clear_answers(places);
    if (events(records, got / 4, places) != 0)
        return last_line("R9", 1);
    show_answers(places);
    return 0;
}

/* ---- batches ---------------------------------------------------------------- */

static int batches(void)
{
    static unsigned char records[4 * ROOM];
    unsigned char pairs[SETUP], head[2];
    size_t asked, count;

    if (take(pairs, SETUP) < SETUP)
        return last_line("short", 0);
    if (!setup(pairs))
        return last_line("R5", 0);
    while ((asked = take(head, 2)) == 2) {
        count = word_at(head);
        if (count > ROOM) {
            fputs(too_many, stderr);
            return 0;
        }
        if (take(records, 4 * count) < 4 * count)
            return last_line("short", 0);
        clear_answers(count);
        events(records, count, count);
        show_answers(count);
    }
    if (asked > 0)
        return last_line("short", 0);
    return 0;
}

/* ---- tries ------------------------------------------------------------------ */

static unsigned char first_pairs[SETUP];  /* of the last setup */

/* What a line begins with: the bus of the last setup, and a memory of which
 * each byte tells its slot and block. */
static void begin_anew(void)
{
    setup(first_pairs);
    lent = sizeof memory;
    for (int i = 0; i < (int)sizeof memory; i++)
        memory[i] = (unsigned char)(i / 512 * 16 + i / 128 % 4 + (i % 128 == 127 ? 8 : i % 128 > 0 ? 4 : 0));
}

static size_t size_of_word(const char *text) { return strcspn(text, " ,"); }

/* One in hex ends in h. */
static int number_at(const char *text) { return (int)strtol(text, NULL, text[size_of_word(text) - 1] == 'h' ? 16 : 10); }

static const char *next_word(const char *text)
{
    text += size_of_word(text);
    return text + (*text != 0);
}

/* The numbers behind a command's name. */
static int numbers_of(const char *text, int *to)
{
    int many = 0;

    for (; *text != 0; text = next_word(text))
        if (size_of_word(text) > 0 && text[0] >= '0' && text[0] <= 'F')
            to[many++] = number_at(text);
    return many;
}

/* Numbers of a slot by their names, a value behind each. */
static void hand_in(struct slot *s, const char *text)
{
    static const char *const names[] = { "kind ", "length ", "left ", "half ", "pointer ", "configuration ", "pending ",
        "protection0 ", "protection1 ", "protection2 ", "protection3 ", "permanent ", "write-protect " };
    int *const numbers[] = { &s->kind, &s->length, &s->ticks_left, &s->half, &s->pointer, &s->reg[1], &s->pending,
        &s->is_protected[0], &s->is_protected[1], &s->is_protected[2], &s->is_protected[3], &s->permanent, &s->write_protect };

    for (; *text != 0; text = next_word(text))
        for (int i = 0; i < 13; i++)
            if (memcmp(text, names[i], strlen(names[i])) == 0)
                *numbers[i] = number_at(next_word(text));
}

/* A list, the answers, and what it changed. */
static void try_list(const int *numbers, int many)
{
    static struct slot was[SLOTS];
    static unsigned char old[sizeof memory], records[64];
    size_t places = (size_t)numbers[0];
    int refused, changed = 0;

    memcpy(was, bus, sizeof bus);
    memcpy(old, memory, sizeof memory);
    for (int i = 1; i < many; i++)
        records[i - 1] = (unsigned char)numbers[i];
    clear_answers(places);
    refused = events(records, (size_t)(many - 1) / 4, places);
    putchar(':');
    if (refused)
        printf(" R%d", refused);
    else if (places == 0)
        printf(" empty");
    for (size_t i = 0; !refused && i < places; i++)
        printf(" %s", answers[i]);
    putchar(',');
    for (int n = 0; n < SLOTS; n++)
        if (bus[n].kind != ABSENT && memcmp(&was[n], &bus[n], sizeof bus[n]) != 0)
            changed = printf(" %d", n);
    if (memcmp(old, memory, sizeof memory) != 0)
        changed = printf(" memory");
    printf("%s changed", changed ? "" : " nothing");
}

static void one_try(const char *command)
{
    int numbers[64], many = numbers_of(command, numbers);

    printf("%s", command);
    command += command[0] == ' ';
    if (memcmp(command, "setup", 5) == 0) {
        for (int i = 0; i < SETUP; i++)
            first_pairs[i] = (unsigned char)numbers[i];
        printf(setup(first_pairs) ? ": taken" : ": refused 5");
    } else if (memcmp(command, "memory", 6) == 0) {
        lent = (size_t)numbers[0];
    } else if (memcmp(command, "slot", 4) == 0) {
        hand_in(&bus[numbers[0]], command + 7);
    } else if (memcmp(command, "list", 4) == 0) {
        try_list(numbers, many);
    } else if (memcmp(command, "at", 2) == 0) {
        printf(": %02Xh", memory[512 * numbers[0] + numbers[1]]);
    }
}

/* Lines of commands, parted by semicolons; what stands behind a colon is left
 * out. */
static int tries(void)
{
    static char text[1 << 16];
    char *at = text;

    take((unsigned char *)text, sizeof text - 1);
    while (*at != 0) {
        size_t size = strcspn(at, ";\n");
        char end = at[size];

        at[size] = 0;
        at[strcspn(at, ":")] = 0;
        if (at == text || at[-1] == '\n')
            begin_anew();
        one_try(at);
        if (end != 0)
            putchar(end);
        at += size;
        if (end != 0)
            *at++ = end;
    }
    return 0;
}

int main(int count, char **words)
{
    if (count == 2 && strcmp(words[1], "list") == 0)
        return list();
    if (count == 2 && strcmp(words[1], "batches") == 0)
        return batches();
    if (count == 2 && strcmp(words[1], "tries") == 0)
        return tries();
    fputs("usage: giver list | giver batches | giver tries\n", stderr);
    return 2;
}
