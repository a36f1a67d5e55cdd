/* Of C's library only what the programs here use, for the kit's compiler, which comes without headers: Linux on x86-64,
 * glibc. */
#pragma once
#define NULL ((void *)0)
typedef unsigned long size_t;
