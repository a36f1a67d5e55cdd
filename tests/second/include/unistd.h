#pragma once
#include <stddef.h>
typedef int pid_t;
pid_t fork(void);
int execvp(const char *, char *const *);
void _exit(int);
int pipe(int *);
int dup2(int, int);
int close(int);
long read(int, void *, size_t);
long write(int, const void *, size_t);
int usleep(unsigned);
int isatty(int);
