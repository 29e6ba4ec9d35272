/* See stddef.h. */
#ifndef KIT_TIME_H
#define KIT_TIME_H

struct timespec {
    long tv_sec, tv_nsec;
};

enum { CLOCK_MONOTONIC = 1 };

int clock_gettime(int clock, struct timespec *now);

#endif
