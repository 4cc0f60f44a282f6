/* Makes rounds of three calls, write, epoll_wait and read, at one of N eventfds of an instance: library_calls N ROUNDS.
 * Compiled with -DMACHINE it makes them on the kernel of this machine, else on one of the library. Status 0 if each
 * call was answered as it was meant. */
#define _GNU_SOURCE
#include <stdint.h>
#include <stdio.h>
#include <stdlib.h>
#include <sys/epoll.h>
#include <sys/eventfd.h>
#include <unistd.h>

#ifdef MACHINE
#define CALL(name, ...) name(__VA_ARGS__)
#else
#include "nippersage.h"
static struct nippersage_task task = {.caller = 0, .pid = 1};
#define CALL(name, ...) nippersage_##name(task, __VA_ARGS__)
#endif

static int instance, active;

static void set_up(int count)
{
    instance = CALL(epoll_create1, 0);
    for (int i = 0; i < count; i++) {
        struct epoll_event event = {.events = EPOLLIN};

        active = CALL(eventfd, 0, EFD_NONBLOCK);
        event.data.fd = active;
        CALL(epoll_ctl, instance, EPOLL_CTL_ADD, active, &event);
    }
}

/* Whether a call was not answered as it was meant. */
static int round_of_calls(void)
{
    uint64_t value = 1;
    struct epoll_event events[8];

    return (CALL(write, active, &value, sizeof value) != sizeof value) |
           (CALL(epoll_wait, instance, events, 8, 0) != 1) |
           (CALL(read, active, &value, sizeof value) != sizeof value);
}

int main(int count, char **words)
{
    int failed = 0;

    if (count != 3) {
        fputs("usage: library_calls N ROUNDS\n", stderr);
        return 2;
    }
#ifndef MACHINE
    if (nippersage_open(NULL, &task.kernel) < 0)
        return 1;
#endif
    set_up(atoi(words[1]));
    long rounds = atol(words[2]);
    for (long i = 0; i < rounds; i++)
        failed |= round_of_calls();
    return failed;
}
