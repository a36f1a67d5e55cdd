#pragma once
#define O_RDONLY 0
#define O_WRONLY 1
int open(const char *, int, ...);
int creat(const char *, unsigned);
