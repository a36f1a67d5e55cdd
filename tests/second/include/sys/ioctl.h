#pragma once
#define FIONREAD 0x541B
int ioctl(int, unsigned long, ...);
