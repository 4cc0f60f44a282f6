/* Threads that share a processor with others, and compute on it. The clocks of processors are real. */
#ifndef PROCESSOR_H
#define PROCESSOR_H

#include <sched.h>
#include <stdlib.h>
#include <time.h>

/* The lowest processor that there is. */
static void take_first_processor(void) {
    cpu_set_t all, first;
    CPU_ZERO(&first);
    if (sched_getaffinity(0, sizeof all, &all) != 0) abort();
    for (int i = 0; i < CPU_SETSIZE && CPU_COUNT(&first) == 0; i++)
        if (CPU_ISSET(i, &all)) CPU_SET(i, &first);
    if (sched_setaffinity(0, sizeof first, &first) != 0) abort();
}

/* For so many nanoseconds, on a processor. */
static void compute(long nanoseconds) {
    struct timespec began, now;
    clock_gettime(CLOCK_THREAD_CPUTIME_ID, &began);
    do {
        clock_gettime(CLOCK_THREAD_CPUTIME_ID, &now);
    } while ((now.tv_sec - began.tv_sec) * 1000000000 + now.tv_nsec - began.tv_nsec < nanoseconds);
}

#endif
