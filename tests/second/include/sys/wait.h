#pragma once
#define WNOHANG 1
#define WTERMSIG(status) ((status) & 127)
#define WIFSIGNALED(status) (WTERMSIG(status) != 0 && WTERMSIG(status) != 127)
#define WEXITSTATUS(status) ((status) >> 8 & 255)
struct rusage;
int waitpid(int, int *, int);
int wait4(int, int *, int, struct rusage *);
