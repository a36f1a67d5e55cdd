/*
 * shrink SCRIPT FOLDER FIRST SECOND: SCRIPT is one on which the two command
 * lines FIRST and SECOND answer differently.  Takes records away, and makes
 * what is left simpler, as long as the two still differ; then prints the
 * case in words with both answers.  The small script stays in FOLDER/small.
 * Status 0 if a case was printed, 1 if the two do not differ.
 */
#include <signal.h>
#include <stdio.h>
#include <stdlib.h>
#include <string.h>
#include <sys/wait.h>

/* ---- The script: the setup, whole records, and a cut record's bytes ----- */

struct script {
    unsigned char setup[16];
    size_t setup_length;          /* 16, unless the script ends before */
    unsigned char (*record)[4];
    size_t records;
    unsigned char rest[3];
    size_t rest_length;
};

static struct script now;
static const char *folder, *command[2];
static long runs;

static void *some(size_t size)
{
    void *p = malloc(size + 1);
    if (p == NULL) {
        fputs("shrink: no memory\n", stderr);
        exit(2);
    }
    return p;
}

static FILE *open_file(const char *path, const char *mode)
{
    FILE *f = fopen(path, mode);
    if (f == NULL) {
        perror(path);
        exit(2);
    }
    return f;
}

/* The whole file with a 0 behind it. */
static char *load(const char *path, size_t *length)
{
    FILE *f = open_file(path, "rb");
    char *text;

    fseek(f, 0, SEEK_END);
    *length = (size_t)ftell(f);
    rewind(f);
    text = some(*length);
    *length = fread(text, 1, *length, f);
    text[*length] = 0;
    fclose(f);
    return text;
}

static void take_apart(const char *bytes, size_t length)
{
    size_t after;

    now.setup_length = length < 16 ? length : 16;
    memcpy(now.setup, bytes, now.setup_length);
    after = length - now.setup_length;
    now.records = after / 4;
    now.record = some(after);
    memcpy(now.record, bytes + now.setup_length, 4 * now.records);
    now.rest_length = after % 4;
    memcpy(now.rest, bytes + length - now.rest_length, now.rest_length);
}

/* ---- Running both ------------------------------------------------------- */

static char *answers[2];          /* what each said last */

static void name_in_folder(char path[1000], const char *name)
{
    snprintf(path, 1000, "%s/%s", folder, name);
}

static void run(int which)
{
    char in[1000], out[1000];
    char *line = some(strlen(command[which]) + 3000);
    size_t length;
    int status;

    name_in_folder(in, "small");
    name_in_folder(out, which == 0 ? "first.out" : "second.out");
    sprintf(line, "{ %s\n} <'%s' >'%s' 2>/dev/null", command[which], in, out);
    status = system(line);
    if (status == -1 || (WIFSIGNALED(status) && WTERMSIG(status) == SIGINT))
        exit(2);                  /* broken off by hand, most likely */
    free(line);
    free(answers[which]);
    answers[which] = load(out, &length);
}

static int differ(void)
{
    char path[1000];
    FILE *f;

    name_in_folder(path, "small");
    f = open_file(path, "wb");
    fwrite(now.setup, 1, now.setup_length, f);
    fwrite(now.record, 4, now.records, f);
    fwrite(now.rest, 1, now.rest_length, f);
    fclose(f);
    run(0);
    run(1);
    runs++;
    return strcmp(answers[0], answers[1]) != 0;
}

/* ---- Taking away -------------------------------------------------------- */

/* Keeps the change made to `now` if the two still differ, else undoes it. */
static int keep_or_undo(struct script before)
{
    if (differ()) {
        if (now.record != before.record)
            free(before.record);
        return 1;
    }
    if (now.record != before.record)
        free(now.record);
    now = before;
    return 0;
}

static int without(size_t at, size_t many)
{
    struct script before = now;

    now.record = some(4 * before.records);
    memcpy(now.record, before.record, 4 * at);
    memcpy(now.record + at, before.record + at + many, 4 * (before.records - at - many));
    now.records = before.records - many;
    return keep_or_undo(before);
}

/* The number of the first line that differs, from 0. */
static size_t first_difference(void)
{
    size_t line = 0;
    for (size_t i = 0; answers[0][i] == answers[1][i]; i++)
        line += answers[0][i] == '\n';
    return line;
}

/* Chunks first, then ever smaller ones; from the end, since what comes last
 * most often stands alone. */
static void take_away(void)
{
    size_t tail;

    if (differ() && (tail = first_difference() + 1) < now.records)
        without(tail, now.records - tail);
    for (size_t chunk = now.records / 2 + 1; chunk > 0; chunk /= 2) {
        int removed;
        do {
            removed = 0;
            for (size_t end = now.records; end >= chunk; end -= chunk)
                removed |= without(end - chunk, chunk);
        } while (removed && chunk == 1);
    }
}

/* An absent slot, a plain memory, or at least the shortest cycle. */
static int try_pair(unsigned char pair[2])
{
    unsigned char before[2] = { pair[0], pair[1] };
    unsigned char simpler[3][2] = { { 0, 0 }, { 1, 1 }, { pair[0], 1 } };

    for (int i = 0; i < 3; i++) {
        if (memcmp(before, simpler[i], 2) == 0)
            break;
        memcpy(pair, simpler[i], 2);
        if (differ())
            return 1;
    }
    memcpy(pair, before, 2);
    return 0;
}

/* 00h instead of what a cell of a record holds, or at least FFh. */
static int try_cell(unsigned char *cell)
{
    unsigned char before = *cell;

    if (before == 0x00)
        return 0;
    *cell = 0x00;
    if (differ())
        return 1;
    *cell = 0xFF;
    if (before != 0xFF && differ())
        return 1;
    *cell = before;
    return 0;
}

/* Tries less in the setup and in each record; 1 if something became simpler. */
static int simplify(void)
{
    int changed = 0;

    if (now.rest_length > 0) {
        struct script before = now;
        now.rest_length = 0;
        changed |= keep_or_undo(before);
    }
    for (size_t i = 0; i + 1 < now.setup_length; i += 2)
        changed |= try_pair(&now.setup[i]);
    for (size_t i = 0; i < now.records; i++)
        for (int cell = 1; cell < 4; cell++)
            changed |= try_cell(&now.record[i][cell]);
    return changed;
}

/* ---- In words ----------------------------------------------------------- */

static void say_setup(void)
{
    static const char *const kinds[] = { "absent", "memory", "memory with sensor", "older memory" };
    int said = 0;

    if (now.setup_length < 16) {
        printf("setup cut after %d bytes\n", (int)now.setup_length);
        return;
    }
    for (int n = 0; n < 8; n++) {
        int kind = now.setup[2 * n], length = now.setup[2 * n + 1];
        if (kind == 0 && length == 0)
            continue;
        said++;
        if (kind <= 3)
            printf("setup slot %d: %s, length %d\n", n, kinds[kind], length);
        else
            printf("setup slot %d: kind %d, length %d\n", n, kind, length);
    }
    printf("setup: %s slots are absent\n", said ? "the other" : "all");
}

static void words(char text[80], const unsigned char r[4])
{
    static const char *const plain[] = { "", "start", "byte", "read", "stop",
        "timeout", "tick", "voltage", "power cycle", "temperature", "write-protect" };
    int kind = r[0], slot = r[1];
    int value = 256 * r[2] + r[3] - (r[2] >= 128 ? 65536 : 0);
    int on_off = value == 0 || value == 1;

    if (kind < 1 || kind > 10)
        sprintf(text, "kind %d slot %d value %d", kind, slot, value);
    else if ((kind == 7 || kind == 10) && on_off)
        sprintf(text, "%s slot %d %s", plain[kind], slot, value ? "on" : "off");
    else if (kind == 7 || kind == 9 || kind == 10)
        sprintf(text, "%s slot %d %d", plain[kind], slot, value);
    else if (kind == 2 && slot == 0 && value >= 0 && value < 256)
        sprintf(text, "byte %02Xh", value);
    else if (kind == 3 && slot == 0 && on_off)
        sprintf(text, "read, %s", value ? "ACK" : "NACK");
    else if (kind == 8 && slot == 0)
        sprintf(text, "power cycle %d", value);
    else if (slot == 0 && value == 0)
        sprintf(text, "%s", plain[kind]);
    else
        sprintf(text, "%s (slot %d value %d)", plain[kind], slot, value);
}

/* The next line of the answers, and on past it. */
static void next_line(const char **from, char line[12])
{
    size_t length = strcspn(*from, "\n");

    if (**from == 0)
        strcpy(line, "(none)");
    else
        sprintf(line, "%.*s", length > 10 ? 10 : (int)length, *from);
    *from += length + ((*from)[length] == '\n');
}

static void print_case(void)
{
    const char *a = answers[0], *b = answers[1];
    int marked = 0;

    say_setup();
    printf("     %-32s %-8s %s\n", "event", "first", "second");
    for (size_t i = 0; i < now.records || *a != 0 || *b != 0; i++) {
        char text[80] = "end of input", line_a[12], line_b[12];
        if (i < now.records)
            words(text, now.record[i]);
        else if (i == now.records && now.rest_length > 0)
            sprintf(text, "cut record of %d bytes", (int)now.rest_length);
        next_line(&a, line_a);
        next_line(&b, line_b);
        printf("%4lu %-32s %-8s %s", (unsigned long)i + 1, text, line_a, line_b);
        if (!marked && strcmp(line_a, line_b) != 0) {
            printf("%*s<-- differs", (int)(9 - strlen(line_b)), "");
            marked = 1;
        }
        putchar('\n');
    }
}

int main(int argc, char **argv)
{
    char *bytes;
    size_t length, records;

    if (argc != 5) {
        fputs("usage: shrink SCRIPT FOLDER FIRST SECOND\n", stderr);
        return 2;
    }
    bytes = load(argv[1], &length);
    folder = argv[2];
    command[0] = argv[3];
    command[1] = argv[4];
    take_apart(bytes, length);
    records = now.records;
    if (!differ()) {
        puts("shrink: the two do not differ on this script");
        return 1;
    }
    do
        take_away();
    while (simplify());
    if (!differ())                /* they must, and the answers are wanted */
        return 1;
    print_case();
    printf("(shrunk from %lu records to %lu in %ld runs)\n",
           (unsigned long)records, (unsigned long)now.records, runs);
    return 0;
}
