/* A few calls, one of each form that the log has. log.out is the log, in the form of strace -ttt. */
#include <poll.h>
#include <stdint.h>
#include <sys/epoll.h>
#include <sys/eventfd.h>
#include <sys/select.h>
#include <sys/socket.h>
#include <sys/timerfd.h>
#include <time.h>
#include <unistd.h>

int main(void) {
    struct itimerspec value = {.it_interval = {0, 0}, .it_value = {1, 500000000}};
    struct epoll_event event = {.events = EPOLLIN | EPOLLONESHOT, .data.u64 = 258}, found[8];
    int instance = epoll_create1(EPOLL_CLOEXEC), timer = timerfd_create(CLOCK_MONOTONIC, TFD_NONBLOCK);
    int sides[2], wrong;
    uint64_t expired;
    wrong = socketpair(AF_UNIX, SOCK_STREAM | SOCK_NONBLOCK | SOCK_CLOEXEC, 0, sides);
    wrong += epoll_ctl(instance, EPOLL_CTL_ADD, timer, &event);
    wrong += timerfd_settime(timer, 0, &value, NULL);
    wrong += epoll_wait(instance, found, 8, -1) != 1;
    wrong += read(timer, &expired, sizeof expired) != 8;
    wrong += write(sides[0], "say \"hello\"\n\001 and many more words to follow", 42) != 42;
    wrong += read(sides[0], &expired, sizeof expired) != -1;
    wrong += close(timer);
    wrong += close(timer) != -1;
    wrong += epoll_pwait2(instance, found, 8, &(struct timespec){0, 1500}, NULL);
    wrong += epoll_pwait2(instance, found, 8, &(struct timespec){0, 1000000000}, NULL) != -1;
    wrong += poll(NULL, 0, 20);
    wrong += ppoll(NULL, 0, &(struct timespec){0, 1}, NULL);
    wrong += select(0, NULL, NULL, NULL, &(struct timeval){0, 7});
    wrong += pselect(0, NULL, NULL, NULL, &(struct timespec){0, 1000}, NULL);
    wrong += clock_nanosleep(CLOCK_MONOTONIC, 0, &(struct timespec){0, 1}, NULL);
    return wrong;
}
