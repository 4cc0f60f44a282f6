/* Handlers that break in everywhere, and call everything. Two threads work, a third one sends them signals as fast as
   it can. Nothing may hang, and no byte may be lost. */
#include "trace.h"

#include <fcntl.h>
#include <poll.h>
#include <signal.h>
#include <stdatomic.h>
#include <stdint.h>
#include <stdlib.h>
#include <string.h>
#include <sys/epoll.h>
#include <sys/eventfd.h>
#include <sys/ioctl.h>
#include <sys/select.h>
#include <sys/socket.h>
#include <sys/timerfd.h>
#include <unistd.h>

enum { TURNS = 300, SIGNALS = 2000 };

static int counter, log_ends[2];
static atomic_int handled, wrong;

#define CHECK(so)                                           \
    do {                                                    \
        if (!(so) && atomic_fetch_add(&wrong, 1) == 0)      \
            trace("wrong in line %d: %d", __LINE__, errno); \
    } while (0)

/* What a program may do in a handler, by POSIX, and some more. */
static void handler(int signal) {
    struct timespec now;
    struct pollfd file;
    int ends[2], saved = errno, copy;
    char byte = (char)signal;
    (void)signal;
    CHECK(write(log_ends[1], &byte, 1) == 1);
    CHECK(clock_gettime(CLOCK_MONOTONIC, &now) == 0);
    CHECK(pipe(ends) == 0);
    copy = dup(ends[0]);
    file = (struct pollfd){copy, POLLIN, 0};
    CHECK(write(ends[1], "x", 1) == 1);
    CHECK(poll(&file, 1, 0) == 1);
    CHECK(read(copy, &byte, 1) == 1);
    CHECK(close(ends[0]) == 0 && close(ends[1]) == 0 && close(copy) == 0);
    atomic_fetch_add(&handled, 1);
    errno = saved;
}

static void work_once(int instance, int timer, const int ends[2], const int sides[2]) {
    struct epoll_event event = {.events = EPOLLIN}, found;
    struct itimerspec value = {.it_value = {100, 0}};
    struct timespec now;
    struct pollfd file = {ends[0], POLLIN, 0};
    struct timeval none = {0, 0};
    fd_set reads;
    char bytes[64];
    int waiting = 0, copy = dup(ends[0]);
    void *block = malloc(100);
    CHECK(epoll_ctl(instance, EPOLL_CTL_ADD, copy, &event) == 0);
    CHECK(write(ends[1], "work", 4) == 4);
    CHECK(epoll_wait(instance, &found, 1, 1000) == 1 || errno == EINTR);
    CHECK(ioctl(copy, FIONREAD, &waiting) == 0 && waiting == 4);
    CHECK(poll(&file, 1, 0) == 1 || errno == EINTR);
    FD_ZERO(&reads);
    FD_SET(ends[0], &reads);
    CHECK(select(ends[0] + 1, &reads, NULL, NULL, &none) == 1 || errno == EINTR);
    CHECK(read(copy, bytes, sizeof bytes) == 4);
    CHECK(fcntl(copy, F_SETFL, O_NONBLOCK) == 0);
    CHECK(epoll_ctl(instance, EPOLL_CTL_DEL, copy, NULL) == 0 && close(copy) == 0);
    CHECK(send(sides[0], "sent", 4, 0) == 4);
    CHECK(recv(sides[1], bytes, 4, MSG_PEEK) == 4);
    CHECK(recv(sides[1], bytes, 4, MSG_WAITALL) == 4);
    CHECK(timerfd_settime(timer, 0, &value, NULL) == 0);
    CHECK(clock_gettime(CLOCK_MONOTONIC, &now) == 0);
    free(block);
    usleep(100);
}

static void *work(void *nothing) {
    int instance = epoll_create1(0), timer = timerfd_create(CLOCK_MONOTONIC, 0), ends[2], sides[2];
    CHECK(pipe(ends) == 0 && socketpair(AF_UNIX, SOCK_STREAM, 0, sides) == 0);
    for (int turn = 0; turn < TURNS; turn++) work_once(instance, timer, ends, sides);
    return nothing;
}

static void *drain(void *count) {
    char bytes[256];
    ssize_t got;
    while ((got = read(log_ends[0], bytes, sizeof bytes)) > 0) *(long *)count += got;
    return NULL;
}

int main(void) {
    struct sigaction action = {.sa_handler = handler, .sa_flags = SA_RESTART};
    pthread_t workers[2], drainer;
    sigset_t all, before;
    long drained = 0;
    counter = eventfd(0, 0);
    if (pipe(log_ends) != 0) trace("no pipe");
    sigaction(SIGUSR1, &action, NULL);
    sigemptyset(&all);
    sigaddset(&all, SIGUSR1);
    for (int i = 0; i < 2; i++) pthread_create(&workers[i], NULL, work, NULL);
    pthread_sigmask(SIG_BLOCK, &all, &before);
    pthread_create(&drainer, NULL, drain, &drained);
    for (int i = 0; i < SIGNALS; i++) {
        pthread_kill(workers[i % 2], SIGUSR1);
        if (i % 20 == 0) usleep(1);
    }
    for (int i = 0; i < 2; i++) pthread_join(workers[i], NULL);
    close(log_ends[1]);
    pthread_join(drainer, NULL);
    trace("wrong: %d, lost: %ld, some came: %d", (int)wrong, (long)handled - drained, handled > 0);
    return 0;
}
