#pragma once
#define SIGINT 2
#define SIGPIPE 13
#define SIG_DFL ((void (*)(int))0)
#define SIG_IGN ((void (*)(int))1)
void (*signal(int, void (*)(int)))(int);
