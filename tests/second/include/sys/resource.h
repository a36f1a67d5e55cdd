#pragma once
struct timeval {
    long tv_sec, tv_usec;
};
struct rusage {
    struct timeval ru_utime, ru_stime;
    long ru_maxrss, others[13];
};
