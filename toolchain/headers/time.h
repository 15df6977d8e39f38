#ifndef HEADERS_TIME_H
#define HEADERS_TIME_H
struct timespec {
    long tv_sec;
    long tv_nsec;
};
#define CLOCK_PROCESS_CPUTIME_ID 2
int clock_gettime(int clock, struct timespec *time);
#endif
