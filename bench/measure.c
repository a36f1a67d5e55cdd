/* Runs a command and measures it, or talks to it one event at a time.
 *   measure run FILE CMD..           with FILE as standard input, its output thrown away: "SECONDS KILOBYTES"
 *   measure talk EVENTS CMD..        writes a setup, then EVENTS ticks one by one, each after the line of the one
 *                                    before: "SECONDS"
 *   measure start COUNT FILE CMD..   COUNT times with FILE as standard input, its output thrown away: "SECONDS" of the
 *                                    processor for one, the lower quartile */
#include <fcntl.h>
#include <stdio.h>
#include <stdlib.h>
#include <string.h>
#include <sys/resource.h>
#include <sys/wait.h>
#include <time.h>
#include <unistd.h>

static double now(void)
{
    struct timespec t;
    clock_gettime(CLOCK_MONOTONIC, &t);
    return t.tv_sec + t.tv_nsec / 1e9;
}

/* The command in a child, with these as its input and output. */
static pid_t spawn(char **command, int in, int out, int other1, int other2)
{
    pid_t child = fork();
    if (child != 0)
        return child;
    dup2(in, 0);
    dup2(out, 1);
    close(in);
    close(out);
    if (other1 >= 0) {
        close(other1);
        close(other2);
    }
    execvp(command[0], command);
    perror(command[0]);
    _exit(127);
}

static int finish(pid_t child, double begun, int with_memory)
{
    struct rusage used;
    int status;
    if (wait4(child, &status, 0, &used) < 0 || status != 0)
        return 1;
    printf(with_memory ? "%.3f %ld\n" : "%.3f\n", now() - begun, used.ru_maxrss);
    return 0;
}

static double seconds(struct timeval t) { return t.tv_sec + t.tv_usec / 1e6; }

static int by_size(const void *a, const void *b)
{
    double x = *(const double *)a, y = *(const double *)b;
    return (x > y) - (x < y);
}

/* Any status counts as done (plan and script end with one of their own), save that of a command that cannot be run. */
static int run_starts(long count, const char *file, char **command)
{
    struct rusage used;
    double *took = malloc(count * sizeof *took);
    int status;
    for (long i = 0; i < count; i++) {
        int in = open(file, O_RDONLY), out = open("/dev/null", O_WRONLY);
        if (in < 0 || out < 0) {
            perror(file);
            return 1;
        }
        pid_t child = spawn(command, in, out, -1, -1);
        close(in);
        close(out);
        if (wait4(child, &status, 0, &used) < 0 || (status & 127) != 0 || status >> 8 >= 126)
            return 1;
        took[i] = seconds(used.ru_utime) + seconds(used.ru_stime);
    }
    qsort(took, count, sizeof *took, by_size);
    printf("%.6f\n", took[count / 4]);
    free(took);
    return 0;
}

int main(int count, char **words)
{
    if (count >= 4 && strcmp(words[1], "run") == 0) {
        int in = open(words[2], O_RDONLY), out = open("/dev/null", O_WRONLY);
        if (in < 0 || out < 0) {
            perror(words[2]);
            return 1;
        }
        double begun = now();
        return finish(spawn(words + 3, in, out, -1, -1), begun, 1);
    }
    if (count >= 4 && strcmp(words[1], "talk") == 0) {
        static const unsigned char setup[16] = { 1, 1 }, tick[4] = { 6 };
        long events = atol(words[2]);
        int to[2], from[2];
        char line[2];
        if (pipe(to) != 0 || pipe(from) != 0)
            return 1;
        pid_t child = spawn(words + 3, to[0], from[1], to[1], from[0]);
        close(to[0]);
        close(from[1]);
        if (write(to[1], setup, 16) != 16)
            return 1;
        double begun = now();
        for (long i = 0; i < events; i++)
            if (write(to[1], tick, 4) != 4 || read(from[0], line, 2) != 2 || memcmp(line, "-\n", 2) != 0)
                return 1;
        double done = now();
        close(to[1]);
        waitpid(child, NULL, 0);
        printf("%.3f\n", done - begun);
        return 0;
    }
    if (count >= 5 && strcmp(words[1], "start") == 0)
        return run_starts(atol(words[2]), words[3], words + 4);
    fprintf(stderr, "usage: measure run FILE CMD.. | measure talk EVENTS CMD.. | measure start COUNT FILE CMD..\n");
    return 2;
}
