/* What the tests share. */
#ifndef CHECK_H
#define CHECK_H
#define _GNU_SOURCE
#include "../nippersage.h"
#include <errno.h>
#include <fcntl.h>
#include <limits.h>
#include <netinet/in.h>
#include <stdio.h>
#include <stdlib.h>
#include <string.h>
#include <sys/eventfd.h>
#include <sys/socket.h>
#include <unistd.h>

/* Ends the program where a number isn't what it has to be. */
#define IS(found, wanted)                                                                                   \
    do {                                                                                                    \
        long long found_ = (long long)(found), wanted_ = (long long)(wanted);                               \
        if (found_ != wanted_) {                                                                            \
            fprintf(stderr, "%s:%d: %s is %lld and not %lld\n", __FILE__, __LINE__, #found, found_, wanted_); \
            exit(1);                                                                                        \
        }                                                                                                   \
    } while (0)

/* A time in nanoseconds. */
static inline long long nanoseconds(struct timespec time) { return time.tv_sec * 1000000000LL + time.tv_nsec; }
#endif
