/* A program that is never idle sees its timers: a pipe in which a byte waits for ever, and a timer beside it. */
#include "trace.h"

#include <stdlib.h>
#include <sys/epoll.h>
#include <sys/syscall.h>
#include <sys/timerfd.h>
#include <linux/futex.h>
#include <stdatomic.h>
#include <stdint.h>
#include <unistd.h>

enum { MOST_TURNS = 300000 };

/* Waits until the timer is among what is found. */
static void wait_for_timer(void) {
    struct itimerspec value = {.it_value = {0, 20000000}};
    struct epoll_event event = {.events = EPOLLIN, .data.u64 = 1}, found[2];
    int ends[2], instance = epoll_create1(0), timer = timerfd_create(CLOCK_MONOTONIC, 0), turns = 0;
    bool has_expired = false;
    if (pipe(ends) != 0 || write(ends[1], "x", 1) != 1) trace("no pipe");
    epoll_ctl(instance, EPOLL_CTL_ADD, ends[0], &event);
    event.data.u64 = 2;
    epoll_ctl(instance, EPOLL_CTL_ADD, timer, &event);
    timerfd_settime(timer, 0, &value, NULL);
    while (!has_expired && turns < MOST_TURNS) {
        int count = epoll_wait(instance, found, 2, -1);
        for (int i = 0; i < count; i++) has_expired = has_expired || found[i].data.u64 == 2;
        turns++;
    }
    trace(has_expired ? "the timer is seen" : "the timer is never seen");
    for (int i = 0; i < 2; i++) close(ends[i]);
    close(timer);
    close(instance);
}

/* A loop that looks at the clock and does something else in between comes to an end. */
static void look_and_work(void) {
    long end = clock_now() + 2, turns = 0;
    int ends[2];
    char byte;
    if (pipe(ends) != 0) trace("no pipe");
    while (clock_now() < end && turns < MOST_TURNS) {
        if (write(ends[1], "x", 1) != 1 || read(ends[0], &byte, 1) != 1) trace("no byte");
        turns++;
    }
    trace(clock_now() >= end ? "the end is seen" : "the end is never seen");
    for (int i = 0; i < 2; i++) close(ends[i]);
}

/* FUTEX_WAIT for so long, as the standard library of C++ waits. */
static void wait_on_futex(void) {
    struct timespec time = {2, 0};
    uint32_t word = 0;
    long began = clock_now(), result = syscall(SYS_futex, &word, FUTEX_WAIT_PRIVATE, 0, &time, NULL, 0);
    trace("futex: %ld", outcome(result));
    trace("after 2 s: %d", clock_now() - began >= 2000);
    trace("another value: %ld", outcome(syscall(SYS_futex, &word, FUTEX_WAIT_PRIVATE, 1, &time, NULL, 0)));
}

static _Atomic uint32_t shared_word;

static void *wait_long(void *began) {
    struct timespec time = {30, 0};
    long result = syscall(SYS_futex, &shared_word, FUTEX_WAIT_PRIVATE, 0, &time, NULL, 0), now = clock_now();
    trace("woken: %ld", outcome(result));
    trace("after 100 ms: %d", now - *(long *)began >= 100 && now - *(long *)began < 20000);
    return NULL;
}

/* And is woken. */
static void wake_futex(void) {
    pthread_t thread;
    long began = clock_now();
    pthread_create(&thread, NULL, wait_long, &began);
    usleep(100000);
    shared_word = 1;
    syscall(SYS_futex, &shared_word, FUTEX_WAKE_PRIVATE, 1, NULL, NULL, 0);
    pthread_join(thread, NULL);
}

enum { TOGETHER = 8, ROUNDS = 20 };
static pthread_barrier_t together;

/* Whose wait ends first changes the word on which the others are about to look once more. */
static void *wait_and_change(void *unused) {
    struct timespec time = {0, 10000000};
    for (int i = 0; i < ROUNDS; i++) {
        uint32_t seen = shared_word;
        pthread_barrier_wait(&together);
        syscall(SYS_futex, &shared_word, FUTEX_WAIT_PRIVATE, seen, &time, NULL, 0);
        shared_word++;
        pthread_barrier_wait(&together);
    }
    return unused;
}

/* Waits on one word that end at one moment. */
static void end_together(void) {
    pthread_t threads[TOGETHER];
    shared_word = 0;
    pthread_barrier_init(&together, NULL, TOGETHER);
    for (int i = 0; i < TOGETHER; i++) pthread_create(&threads[i], NULL, wait_and_change, NULL);
    for (int i = 0; i < TOGETHER; i++) pthread_join(threads[i], NULL);
    trace("waits that ended: %u", shared_word);
}

int main(void) {
    wait_for_timer();
    look_and_work();
    wait_on_futex();
    wake_futex();
    end_together();
    return 0;
}
