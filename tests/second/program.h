/*
 * A program that is tried: an input, the program's run on it, and what it said.
 * The input goes there as a file, through a pipe in odd pieces, or as a talk:
 * piece by piece, where what is due to one piece must have been said before the
 * next is given.  Files in `folder`: input, said (standard output), told
 * (standard error).  Included by judge.h.
 */
#include "files.h"
#include <fcntl.h>
#include <sched.h>
#include <signal.h>
#include <sys/ioctl.h>
#include <sys/wait.h>
#include <unistd.h>

enum way { AS_FILE, IN_PIECES, AS_TALK };

static unsigned char input[1 << 20];
static size_t length;             /* of the input */
static pid_t child;               /* 0 when it has ended */
static int ended;                 /* how */

/* Starts the command line on this input; `other` is not for it. */
static void start_program(const char *command, int in, int other)
{
    char *words[] = { "sh", "-c", (char *)command, NULL };
    int said = creat(path("said"), 0666), told = creat(path("told"), 0666);

    child = fork();
    if (child < 0)
        die("fork");
    if (child == 0) {
        signal(SIGPIPE, SIG_DFL);
        dup2(in, 0);
        dup2(said, 1);
        dup2(told, 2);
        close(other);
    }
    close(in);
    close(said);
    close(told);
    if (child == 0) {
        execvp(words[0], words);
        _exit(127);
    }
}

static int has_ended(int flags)
{
    if (child != 0 && waitpid(child, &ended, flags) == child)
        child = 0;
    return child == 0;
}

/* In odd pieces, each when the one before has been taken.  How many are taken
 * must not change what is tried next. */
static void feed(int to)
{
    unsigned long long before = state;
    int left;

    for (size_t at = 0, many; at < length; at += many) {
        many = 1 + (size_t)below(one_in(2) ? 13 : 1 + (int)length / 8);
        if (many > length - at)
            many = length - at;
        if (write(to, input + at, many) < 0)
            break;                /* it has seen enough, and has ended */
        while (ioctl(to, FIONREAD, &left) == 0 && left > 0 && !has_ended(WNOHANG))
            sched_yield();
    }
    state = before;
}

/* Whether so many bytes are said, or come to be within ten seconds.  A program
 * that has ended is judged by what it said. */
static int is_said(size_t many)
{
    for (int i = 0; i < 50000; i++) {
        int last = has_ended(WNOHANG);
        size_t said;

        free(read_file("said", &said));
        if (said >= many || last)
            return 1;
        usleep(200);
    }
    return 0;
}

/* Gives `first` bytes, then four at a time.  due(given) says how many bytes the
 * program must have said when so many are given.  Gives the number of bytes to
 * which nothing came, or 0. */
static size_t talk(int to, size_t first, size_t (*due)(size_t given))
{
    for (size_t at = 0, many = first; at < length; at += many, many = 4) {
        if (many > length - at)
            many = length - at;
        if (write(to, input + at, many) < 0)
            return 0;             /* it has ended: what it said is judged */
        if (!is_said(due(at + many)))
            return at + many;
    }
    return 0;
}

/* Runs the command line on the input.  In a talk, `first` and `due` as above;
 * gives what talk gives. */
static size_t run_program(const char *command, enum way way, size_t first, size_t (*due)(size_t given))
{
    FILE *f = open_file("input", "wb");
    size_t silent = 0;
    int pipes[2];

    fwrite(input, 1, length, f);
    fclose(f);
    if (way == AS_FILE) {
        int in = open(path("input"), O_RDONLY);
        if (in < 0)
            die(path("input"));
        start_program(command, in, -1);
    } else {
        if (pipe(pipes) != 0)
            die("pipe");
        start_program(command, pipes[0], pipes[1]);
        if (way == AS_TALK)
            silent = talk(pipes[1], first, due);
        else
            feed(pipes[1]);
        close(pipes[1]);
    }
    has_ended(0);
    return silent;
}
