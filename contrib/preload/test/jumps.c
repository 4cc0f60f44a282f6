/* Handlers that jump out of waits, and what comes after. */
#include "trace.h"

#include <poll.h>
#include <setjmp.h>
#include <signal.h>
#include <sys/epoll.h>
#include <sys/time.h>
#include <unistd.h>

static sigjmp_buf out;
static int ends[2], instance;
static volatile int jumps;

static void jump(int signal) {
    (void)signal;
    siglongjmp(out, 1);
}

/* A jump that stays in the handler leaves no wait. */
static void jump_within(int signal) {
    jmp_buf here;
    (void)signal;
    if (setjmp(here) == 0) longjmp(here, 1);
    jumps++;
}

/* A handler that waits, and is jumped out of by another one, with the wait that it broke. */
static void wait_within(int signal) {
    struct itimerval value = {.it_value = {0, 100000}};
    char byte;
    (void)signal;
    setitimer(ITIMER_REAL, &value, NULL);
    if (read(ends[0], &byte, 1) == 1) trace("read in the handler");
    trace("not reached");
}

static void handle(int signal, void (*handler)(int)) {
    struct sigaction action = {.sa_handler = handler};
    sigaction(signal, &action, NULL);
}

static void alarm_in(int milliseconds) {
    struct itimerval value = {.it_value = {0, milliseconds * 1000}};
    setitimer(ITIMER_REAL, &value, NULL);
}

static void wait_by(int way) {
    struct pollfd file = {ends[0], POLLIN, 0};
    struct epoll_event event;
    char byte;
    switch (way) {
    case 0: trace("read: %zd", read(ends[0], &byte, 1)); break;
    case 1: trace("epoll_wait: %d", epoll_wait(instance, &event, 1, -1)); break;
    case 2: trace("poll: %d", poll(&file, 1, -1)); break;
    case 3: trace("sleep: %u", sleep(10)); break;
    case 4: trace("pause: %d", pause()); break;
    default:
        raise(SIGUSR1);
        trace("epoll_wait: %d", epoll_wait(instance, &event, 1, -1));
    }
}

static void *write_late(void *nothing) {
    usleep(100000);
    if (write(ends[1], "x", 1) != 1) trace("not written");
    return nothing;
}

int main(void) {
    struct epoll_event event = {.events = EPOLLIN};
    sigset_t alarms;
    pthread_t thread;
    char byte;
    instance = epoll_create1(0);
    if (pipe(ends) != 0) trace("no pipe");
    epoll_ctl(instance, EPOLL_CTL_ADD, ends[0], &event);
    handle(SIGALRM, jump);
    handle(SIGUSR1, wait_within);
    for (volatile int way = 0; way <= 5; way++) {
        alarm_in(100);
        if (sigsetjmp(out, 1) == 0) {
            wait_by(way);
        } else {
            trace("out of %d", (int)way);
        }
    }
    handle(SIGALRM, jump_within);
    alarm_in(100);
    trace("broken: %ld", outcome(epoll_wait(instance, &event, 1, -1)));
    trace("%d within", (int)jumps);
    sigemptyset(&alarms);
    sigaddset(&alarms, SIGALRM);
    pthread_sigmask(SIG_BLOCK, &alarms, NULL);
    pthread_create(&thread, NULL, write_late, NULL);
    trace("epoll_wait: %d", epoll_wait(instance, &event, 1, -1));
    trace("read: %zd", read(ends[0], &byte, 1));
    pthread_join(thread, NULL);
    return 0;
}
