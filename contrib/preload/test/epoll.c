/* epoll by its own calls: a chain of EPOLLONESHOT registrations, edge-triggered ones, a nested instance, timers by
   both clocks. */
#include "trace.h"

#include <fcntl.h>
#include <string.h>
#include <sys/epoll.h>
#include <sys/eventfd.h>
#include <sys/timerfd.h>
#include <unistd.h>

enum { LINKS = 5 };

static long control(int instance, int op, int fd, uint32_t events) {
    struct epoll_event event = {.events = events, .data.fd = fd};
    return outcome(epoll_ctl(instance, op, fd, &event));
}

static void wait_once(int instance, int timeout) {
    struct epoll_event events[8];
    int count = epoll_wait(instance, events, 8, timeout);
    trace("wait: %d, events %#x", count, count > 0 ? events[0].events : 0);
}

/* Each link is armed again after its report, and hands its count to the next one. */
static void chain(void) {
    int instance = epoll_create1(EPOLL_CLOEXEC), links[LINKS];
    eventfd_t value = 1;
    for (int i = 0; i < LINKS; i++) {
        links[i] = eventfd(0, EFD_NONBLOCK);
        trace("add: %ld", control(instance, EPOLL_CTL_ADD, links[i], EPOLLIN | EPOLLONESHOT));
    }
    eventfd_write(links[0], value);
    for (int turn = 0; turn < 2 * LINKS; turn++) {
        struct epoll_event event;
        int i = 0, count = epoll_wait(instance, &event, 1, 100);
        while (i < LINKS && (count != 1 || links[i] != event.data.fd)) i++;
        trace("turn %d: %d from link %d", turn, count, i);
        if (i == LINKS) break;
        trace("read: %ld", outcome(eventfd_read(links[i], &value)));
        trace("count: %llu", (unsigned long long)value);
        trace("arm: %ld", control(instance, EPOLL_CTL_MOD, links[i], EPOLLIN | EPOLLONESHOT));
        eventfd_write(links[(i + 1) % LINKS], value + 1);
    }
    wait_once(instance, 0);
    for (int i = 0; i < LINKS; i++) close(links[i]);
    close(instance);
}

static void edges(void) {
    int instance = epoll_create1(0), ends[2];
    trace("pipe: %d", pipe2(ends, O_NONBLOCK | O_CLOEXEC));
    trace("add: %ld", control(instance, EPOLL_CTL_ADD, ends[0], EPOLLIN | EPOLLET));
    trace("write: %zd", write(ends[1], "abc", 3));
    wait_once(instance, 100);
    wait_once(instance, 100);
    trace("write: %zd", write(ends[1], "d", 1));
    wait_once(instance, 100);
    close(ends[1]);
    wait_once(instance, 100);
    close(ends[0]);
    wait_once(instance, 100);
    close(instance);
}

static void nests(void) {
    int inner = epoll_create1(0), outer = epoll_create1(0), counter = eventfd(0, 0);
    trace("add: %ld", control(inner, EPOLL_CTL_ADD, counter, EPOLLIN));
    trace("add: %ld", control(outer, EPOLL_CTL_ADD, inner, EPOLLIN));
    trace("itself: %ld", control(outer, EPOLL_CTL_ADD, outer, EPOLLIN));
    trace("twice: %ld", control(outer, EPOLL_CTL_ADD, inner, EPOLLIN));
    trace("loop: %ld", control(inner, EPOLL_CTL_ADD, outer, EPOLLIN));
    wait_once(outer, 100);
    eventfd_write(counter, 5);
    wait_once(outer, 100);
    trace("delete: %ld", control(inner, EPOLL_CTL_DEL, counter, 0));
    trace("again: %ld", control(inner, EPOLL_CTL_DEL, counter, 0));
    wait_once(outer, 100);
    close(counter);
    close(inner);
    close(outer);
}

/* Of the exclusive registrations on a counter both show what it holds. What is refused is so on both kernels. */
static void exclusive(void) {
    int one = epoll_create1(0), two = epoll_create1(0), counter = eventfd(0, 0);
    uint32_t mask = EPOLLIN | EPOLLEXCLUSIVE;
    trace("add: %ld", control(one, EPOLL_CTL_ADD, counter, mask | EPOLLET));
    trace("add: %ld", control(two, EPOLL_CTL_ADD, counter, mask));
    trace("twice: %ld", control(two, EPOLL_CTL_ADD, counter, mask));
    trace("one-shot: %ld", control(two, EPOLL_CTL_ADD, counter, mask | EPOLLONESHOT));
    trace("half-closed: %ld", control(two, EPOLL_CTL_ADD, counter, mask | EPOLLRDHUP));
    trace("instance: %ld", control(two, EPOLL_CTL_ADD, one, mask));
    trace("change: %ld", control(two, EPOLL_CTL_MOD, counter, EPOLLIN));
    trace("change: %ld", control(two, EPOLL_CTL_MOD, counter, mask));
    wait_once(one, 100);
    eventfd_write(counter, 5);
    wait_once(one, 100);
    wait_once(one, 100);
    wait_once(two, 100);
    trace("delete: %ld", control(two, EPOLL_CTL_DEL, counter, 0));
    trace("change: %ld", control(two, EPOLL_CTL_MOD, counter, mask));
    trace("plain: %ld", control(two, EPOLL_CTL_ADD, counter, EPOLLIN));
    trace("change: %ld", control(two, EPOLL_CTL_MOD, counter, mask));
    close(counter);
    close(one);
    close(two);
}

/* A timer that is set to a moment of a clock, half a second from now. */
static void timer(int clock) {
    int instance = epoll_create1(0), fd = timerfd_create(clock, TFD_NONBLOCK);
    struct itimerspec value = {.it_interval = {0, 250000000}};
    struct timespec limit = {2, 999999};
    struct epoll_event event;
    uint64_t expired = 0;
    clock_gettime(clock, &value.it_value);
    value.it_value.tv_nsec += 500000000;
    if (value.it_value.tv_nsec >= 1000000000) {
        value.it_value.tv_sec++;
        value.it_value.tv_nsec -= 1000000000;
    }
    trace("add: %ld", control(instance, EPOLL_CTL_ADD, fd, EPOLLIN));
    trace("settime: %d", timerfd_settime(fd, TFD_TIMER_ABSTIME, &value, NULL));
    for (int i = 0; i < 3; i++) {
        trace("pwait2: %d", epoll_pwait2(instance, &event, 1, &limit, NULL));
        trace("read: %ld", outcome(read(fd, &expired, sizeof expired)));
        trace("expired: %llu", (unsigned long long)expired);
    }
    trace("disarm: %d", timerfd_settime(fd, 0, &(struct itimerspec){.it_value = {0, 0}}, NULL));
    wait_once(instance, 300);
    close(fd);
    close(instance);
}

/* How many nanoseconds an epoll_pwait2 of so many takes, if it finds nothing. */
static long took(int instance, long count) {
    struct timespec before, after, time = {0, count};
    struct epoll_event event;
    long found;
    clock_gettime(CLOCK_MONOTONIC, &before);
    found = outcome(epoll_pwait2(instance, &event, 1, &time, NULL));
    clock_gettime(CLOCK_MONOTONIC, &after);
    return found != 0 ? found : (after.tv_sec - before.tv_sec) * 1000000000 + after.tv_nsec - before.tv_nsec;
}

/* Times below a millisecond, and what is no time: that is said before what is no instance. */
static void short_times(void) {
    static const struct timespec none[] = {{0, 1000000000}, {0, -1}, {-1, 0}};
    int instance = epoll_create1(0), fd = timerfd_create(CLOCK_MONOTONIC, TFD_NONBLOCK);
    struct itimerspec value = {.it_value = {0, 1000}};
    struct epoll_event event;
    uint64_t expired = 0;
    trace("add: %ld", control(instance, EPOLL_CTL_ADD, fd, EPOLLIN));
    trace("1,500 ns: %d", took(instance, 1500) >= 1500);
    trace("1 ns: %d", took(instance, 1) >= 1);
    for (int i = 0; i < 3; i++) {
        trace("no time: %ld", outcome(epoll_pwait2(instance, &event, 1, &none[i], NULL)));
        trace("nor an instance: %ld", outcome(epoll_pwait2(-1, &event, 1, &none[i], NULL)));
        value.it_interval = none[i];
        trace("no interval: %ld", outcome(timerfd_settime(fd, 0, &value, NULL)));
    }
    value.it_interval = (struct timespec){0, 0};
    for (value.it_value.tv_nsec = 1000; value.it_value.tv_nsec > 0; value.it_value.tv_nsec /= 10) {
        trace("settime: %ld", outcome(timerfd_settime(fd, 0, &value, NULL)));
        wait_once(instance, -1);
        trace("read: %ld", outcome(read(fd, &expired, sizeof expired)));
        trace("expired: %llu", (unsigned long long)expired);
    }
    close(fd);
    close(instance);
}

int main(void) {
    chain();
    edges();
    nests();
    exclusive();
    timer(CLOCK_MONOTONIC);
    timer(CLOCK_REALTIME);
    short_times();
    trace("close: %ld", outcome(close(-1)));
    return 0;
}
