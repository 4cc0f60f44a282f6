/* What the tests print: lines with the clock in milliseconds since the first one, as "[500 ms] text". */
#ifndef TRACE_H
#define TRACE_H

#include <errno.h>
#include <pthread.h>
#include <stdarg.h>
#include <stdbool.h>
#include <stdio.h>
#include <time.h>

static inline long clock_now(void) {
    struct timespec now;
    clock_gettime(CLOCK_MONOTONIC, &now);
    return (long)now.tv_sec * 1000 + now.tv_nsec / 1000000;
}

static long clock_began = -1;

__attribute__((format(printf, 1, 2))) static inline void trace(const char *format, ...) {
    va_list arguments;
    if (clock_began < 0) clock_began = clock_now();
    printf("[%ld ms] ", clock_now() - clock_began);
    va_start(arguments, format);
    vprintf(format, arguments);
    va_end(arguments);
    printf("\n");
}

/* An answer, or minus the error number. */
static inline long outcome(long result) { return result < 0 ? -(long)errno : result; }

#endif
