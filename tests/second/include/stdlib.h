#pragma once
#include <stddef.h>
void *malloc(size_t);
void free(void *);
void exit(int);
int system(const char *);
long atol(const char *);
long strtol(const char *, char **, int);
unsigned long long strtoull(const char *, char **, int);
void qsort(void *, size_t, size_t, int (*)(const void *, const void *));
