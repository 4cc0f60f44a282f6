/* Handlers of signals: in waits, between them, and what they break. Each wait is broken by an alarm of the clock that
   the program sees. */
#include "trace.h"

#include <fcntl.h>
#include <poll.h>
#include <signal.h>
#include <stdint.h>
#include <stdlib.h>
#include <string.h>
#include <sys/epoll.h>
#include <sys/eventfd.h>
#include <sys/select.h>
#include <sys/socket.h>
#include <sys/time.h>
#include <unistd.h>

enum { BYTES = 200 };

static int ends[2], counter;
static volatile sig_atomic_t came;

static void note(int signal) {
    (void)signal;
    came++;
}

/* The self-pipe trick. */
static void write_byte(int signal) {
    char byte = (char)signal;
    came++;
    if (write(ends[1], &byte, 1) != 1) came += 1000;
}

static void handle(int signal, void (*handler)(int), int flags) {
    struct sigaction action = {.sa_handler = handler, .sa_flags = flags};
    sigaction(signal, &action, NULL);
    came = 0;
}

/* The clock sends SIGALRM once, in so many milliseconds. */
static void alarm_in(int milliseconds) {
    struct itimerval value = {.it_value = {milliseconds / 1000, milliseconds % 1000 * 1000}};
    setitimer(ITIMER_REAL, &value, NULL);
}

static void said(const char *call, long result) { trace("%s: %ld, %d came", call, outcome(result), (int)came); }

/* ---- what a handler breaks ---- */

static void waits_of(int flags) {
    struct epoll_event event = {.events = EPOLLIN};
    struct pollfd file = {ends[0], POLLIN, 0};
    struct timespec time = {5, 0}, left = {0, 0};
    struct timeval most = {5, 0};
    fd_set reads;
    int instance = epoll_create1(0);
    epoll_ctl(instance, EPOLL_CTL_ADD, ends[0], &event);
    handle(SIGALRM, note, flags);
    alarm_in(100);
    said("epoll_wait", epoll_wait(instance, &event, 1, -1));
    alarm_in(100);
    said("epoll_wait for long", epoll_wait(instance, &event, 1, 5000));
    alarm_in(100);
    said("poll", poll(&file, 1, -1));
    alarm_in(100);
    said("poll of nothing", poll(NULL, 0, 5000));
    FD_ZERO(&reads);
    FD_SET(ends[0], &reads);
    alarm_in(100);
    said("select", select(ends[0] + 1, &reads, NULL, NULL, &most));
    alarm_in(100);
    said("nanosleep", nanosleep(&time, &left));
    trace("left: %d", left.tv_sec == 4 && left.tv_nsec > 500000000);
    alarm_in(100);
    trace("clock_nanosleep: %d", clock_nanosleep(CLOCK_MONOTONIC, 0, &time, &left));
    alarm_in(1100);
    trace("sleep: %u", sleep(10));
    alarm_in(100);
    said("pause", pause());
    close(instance);
}

static void *write_later(void *nothing) {
    usleep(300000);
    if (write(ends[1], "late", 4) != 4) trace("not written");
    return nothing;
}

/* A read goes on after a handler of SA_RESTART, and is broken by another one. */
static void reads(int flags) {
    pthread_t thread;
    char bytes[8];
    sigset_t alarms;
    handle(SIGALRM, note, flags);
    sigemptyset(&alarms);
    sigaddset(&alarms, SIGALRM);
    pthread_sigmask(SIG_BLOCK, &alarms, NULL);
    pthread_create(&thread, NULL, write_later, NULL);
    pthread_sigmask(SIG_UNBLOCK, &alarms, NULL);
    alarm_in(100);
    said("read", read(ends[0], bytes, sizeof bytes));
    pthread_join(thread, NULL);
    if (!(flags & SA_RESTART)) said("the rest", read(ends[0], bytes, sizeof bytes));
}

/* A write that has moved something answers how much. */
static void writes(int flags) {
    static char much[100000];
    int sides[2];
    handle(SIGALRM, note, flags);
    if (pipe(sides) != 0) trace("no pipe");
    alarm_in(100);
    said("write of much", write(sides[1], much, sizeof much));
    alarm_in(100);
    if (!(flags & SA_RESTART)) said("write to what is full", write(sides[1], much, 1));
    alarm_in(0);
    for (int i = 0; i < 2; i++) close(sides[i]);
}

/* ---- a handler that makes ready what it breaks ---- */

static int full[2], sides[2]; /* a pipe without room, and sockets of which the first has a timeout */

static void make_ready(int signal) {
    char bytes[4096];
    (void)signal;
    came++;
    if (write(ends[1], "ready", 5) != 5 || eventfd_write(counter, 3) != 0) came += 1000;
    if (write(sides[1], "ready", 5) != 5 || read(full[0], bytes, sizeof bytes) != sizeof bytes) came += 1000;
}

static void set_nonblocking(bool is_nonblocking) {
    const int all[] = {ends[0], counter, sides[0], full[1]};
    for (int i = 0; i < 4; i++) fcntl(all[i], F_SETFL, is_nonblocking ? O_NONBLOCK : 0);
}

/* What came of a call, and what the handler has left behind, which is taken away again. */
static void after(const char *call, long result) {
    static char much[4096];
    eventfd_t value;
    long left;
    said(call, result);
    set_nonblocking(true);
    left = outcome(read(ends[0], much, sizeof much));
    trace("left: %ld, %ld, %ld", left, outcome(eventfd_read(counter, &value)), outcome(recv(sides[0], much, 64, 0)));
    while (write(full[1], much, sizeof much) > 0) continue;
    set_nonblocking(false);
    came = 0;
}

static void ready_waits(int instance, const sigset_t *none) {
    struct pollfd file = {ends[0], POLLIN, 0};
    struct timeval most = {5, 0};
    struct timespec time = {5, 0};
    struct epoll_event event;
    fd_set reads;
    FD_ZERO(&reads);
    FD_SET(ends[0], &reads);
    alarm_in(50);
    after("epoll_wait", epoll_wait(instance, &event, 1, -1));
    alarm_in(50);
    after("epoll_pwait", epoll_pwait(instance, &event, 1, 5000, none));
    alarm_in(50);
    after("epoll_pwait2", epoll_pwait2(instance, &event, 1, &time, none));
    alarm_in(50);
    after("poll", poll(&file, 1, 5000));
    alarm_in(50);
    after("ppoll", ppoll(&file, 1, NULL, none));
    alarm_in(50);
    after("select", select(ends[0] + 1, &reads, NULL, NULL, &most));
    alarm_in(50);
    after("pselect", pselect(ends[0] + 1, &reads, NULL, NULL, NULL, none));
}

/* A signal that is pending breaks a wait, unless something is ready: then it stays pending, if it is blocked after. */
static void ready_pending(int instance) {
    struct pollfd file = {ends[0], POLLIN, 0};
    struct timespec none = {0, 0};
    struct epoll_event event;
    sigset_t alarms, before;
    sigemptyset(&alarms);
    sigaddset(&alarms, SIGALRM);
    pthread_sigmask(SIG_BLOCK, &alarms, &before);
    raise(SIGALRM);
    after("pending, epoll_pwait of no time", epoll_pwait(instance, &event, 1, 0, &before));
    after("pending, epoll_pwait", epoll_pwait(instance, &event, 1, -1, &before));
    raise(SIGALRM);
    after("pending, ppoll of no time", ppoll(&file, 1, &none, &before));
    raise(SIGALRM);
    after("pending, ppoll", ppoll(&file, 1, NULL, &before));
    raise(SIGALRM);
    after("pending, pselect", pselect(0, NULL, NULL, NULL, NULL, &before));
    raise(SIGALRM);
    if (write(ends[1], "x", 1) != 1) trace("not written");
    after("pending, and ready", epoll_pwait(instance, &event, 1, -1, &before));
    pthread_sigmask(SIG_SETMASK, &before, NULL);
    after("at last", 0);
}

/* But for the one with a timeout, these go on after a handler of SA_RESTART, and find what it has made. */
static void ready_calls(void) {
    struct timeval most = {5, 0};
    char bytes[8];
    eventfd_t value;
    alarm_in(50);
    after("read", read(ends[0], bytes, sizeof bytes));
    alarm_in(50);
    after("write", write(full[1], bytes, sizeof bytes));
    alarm_in(50);
    after("eventfd", eventfd_read(counter, &value));
    alarm_in(50);
    after("recv", recv(sides[0], bytes, sizeof bytes, 0));
    setsockopt(sides[0], SOL_SOCKET, SO_RCVTIMEO, &most, sizeof most);
    alarm_in(50);
    after("recv with a timeout", recv(sides[0], bytes, sizeof bytes, 0));
}

static void ready(int flags) {
    struct epoll_event event = {.events = EPOLLIN};
    int instance = epoll_create1(0);
    sigset_t none;
    sigemptyset(&none);
    if (pipe(full) != 0 || socketpair(AF_UNIX, SOCK_STREAM, 0, sides) != 0) trace("no ends");
    handle(SIGALRM, make_ready, flags);
    epoll_ctl(instance, EPOLL_CTL_ADD, ends[0], &event);
    after("before", 0);
    ready_waits(instance, &none);
    ready_pending(instance);
    ready_calls();
    for (int i = 0; i < 2; i++) close(full[i]), close(sides[i]);
    close(instance);
}

/* ---- the self-pipe trick ---- */

static pthread_t main_thread;

static void *send_many(void *nothing) {
    for (int i = 0; i < BYTES; i++) {
        pthread_kill(main_thread, SIGRTMIN);
        if (i % 10 == 0) usleep(1000);
    }
    return nothing;
}

/* Each signal writes a byte, in waits and between them. */
static void self_pipe(void) {
    struct epoll_event event = {.events = EPOLLIN};
    struct sigaction action = {.sa_handler = write_byte, .sa_flags = SA_RESTART};
    int instance = epoll_create1(0), got = 0;
    pthread_t thread;
    char bytes[64];
    came = 0;
    sigaction(SIGRTMIN, &action, NULL);
    epoll_ctl(instance, EPOLL_CTL_ADD, ends[0], &event);
    main_thread = pthread_self();
    pthread_create(&thread, NULL, send_many, NULL);
    while (got < BYTES)
        if (epoll_wait(instance, &event, 1, -1) == 1) got += (int)read(ends[0], bytes, sizeof bytes);
    pthread_join(thread, NULL);
    trace("%d of %d bytes, %d signals", got, BYTES, (int)came);
    close(instance);
}

static void add_one(int signal) {
    (void)signal;
    came++;
    eventfd_write(counter, 1);
}

/* The same in a read that the handler itself ends. */
static void self_event(void) {
    eventfd_t value = 0;
    handle(SIGALRM, add_one, SA_RESTART);
    alarm_in(100);
    said("eventfd", eventfd_read(counter, &value));
    trace("value: %llu", (unsigned long long)value);
}

/* ---- who is woken ---- */

static int shared;

static void *wait_in_thread(void *milliseconds) {
    struct epoll_event event;
    long result = epoll_wait(shared, &event, 1, (int)(intptr_t)milliseconds);
    if (result < 0) {
        trace("thread: broken");
        result = epoll_wait(shared, &event, 1, -1);
    }
    trace("thread: %ld", result);
    return NULL;
}

/* Two threads wait at one instance. The handler breaks the wait of one, and the other one's goes on. */
static void two_waits(void) {
    struct epoll_event event = {.events = EPOLLIN | EPOLLET};
    eventfd_t value;
    pthread_t first, second;
    handle(SIGUSR1, note, 0);
    shared = epoll_create1(0);
    epoll_ctl(shared, EPOLL_CTL_ADD, counter, &event);
    pthread_create(&first, NULL, wait_in_thread, (void *)-1);
    usleep(50000);
    pthread_create(&second, NULL, wait_in_thread, (void *)500);
    usleep(50000);
    pthread_kill(first, SIGUSR1);
    usleep(100000);
    pthread_join(second, NULL);
    eventfd_write(counter, 1);
    pthread_join(first, NULL);
    eventfd_read(counter, &value);
    trace("%d came", (int)came);
    close(shared);
}

/* ---- masks ---- */

static void masks(void) {
    struct epoll_event event = {.events = EPOLLIN};
    struct pollfd file = {ends[0], POLLIN, 0};
    struct timespec none = {0, 0};
    sigset_t usr, before, now, all_but;
    int instance = epoll_create1(0);
    epoll_ctl(instance, EPOLL_CTL_ADD, ends[0], &event);
    handle(SIGUSR1, note, SA_RESTART);
    sigemptyset(&usr);
    sigaddset(&usr, SIGUSR1);
    pthread_sigmask(SIG_BLOCK, &usr, &before);
    raise(SIGUSR1);
    trace("blocked: %d came", (int)came);
    said("epoll_pwait", epoll_pwait(instance, &event, 1, -1, &before));
    kill(getpid(), SIGUSR1);
    said("ppoll", ppoll(&file, 1, NULL, &before));
    raise(SIGUSR1);
    said("ppoll of no time", ppoll(&file, 1, &none, &before));
    raise(SIGUSR1);
    said("pselect", pselect(0, NULL, NULL, NULL, NULL, &before));
    raise(SIGUSR1);
    said("sigsuspend", sigsuspend(&before));
    pthread_sigmask(SIG_SETMASK, NULL, &now);
    trace("still blocked: %d", sigismember(&now, SIGUSR1));
    sigfillset(&all_but);
    sigdelset(&all_but, SIGALRM);
    handle(SIGALRM, note, 0);
    raise(SIGUSR1);
    alarm_in(50);
    said("sigsuspend of another", sigsuspend(&all_but));
    pthread_sigmask(SIG_SETMASK, &before, NULL);
    trace("at last: %d came", (int)came);
    close(instance);
}

/* ---- kinds of handlers ---- */

static void nested(int signal) {
    if (came++ == 0) raise(signal);
    came += 10;
}

static void tell_value(int signal, siginfo_t *info, void *context) {
    (void)signal;
    came = context ? info->si_value.sival_int : -1;
}

#pragma GCC diagnostic push
#pragma GCC diagnostic ignored "-Wdeprecated-declarations"
static void make_breaking(int signal) { siginterrupt(signal, 1); }
#pragma GCC diagnostic pop

static void kinds(void) {
    struct sigaction action = {.sa_sigaction = tell_value, .sa_flags = SA_SIGINFO}, was;
    union sigval value = {.sival_int = 77};
    handle(SIGUSR1, nested, SA_NODEFER);
    raise(SIGUSR1);
    trace("nested: %d", (int)came);
    handle(SIGUSR1, nested, 0);
    raise(SIGUSR1);
    trace("one after the other: %d", (int)came);
    handle(SIGUSR1, note, (int)SA_RESETHAND);
    raise(SIGUSR1);
    sigaction(SIGUSR1, NULL, &was);
    trace("once: %d, %d", (int)came, was.sa_handler == SIG_DFL);
    sigaction(SIGUSR1, &action, NULL);
    sigqueue(getpid(), SIGUSR1, value);
    trace("value: %d", (int)came);
    trace("before: %d", (void *)signal(SIGUSR1, SIG_IGN) == (void *)tell_value);
    raise(SIGUSR1);
    trace("ignored: %d", signal(SIGUSR1, note) == SIG_IGN);
    sigaction(SIGUSR1, NULL, &was);
    trace("signal restarts: %d", (was.sa_flags & SA_RESTART) != 0);
    make_breaking(SIGUSR1);
    sigaction(SIGUSR1, NULL, &was);
    trace("and no more: %d", (was.sa_flags & SA_RESTART) != 0);
    trace("not that one: %ld", outcome(sigaction(SIGKILL, &action, NULL)));
}

static void broken_pipe(void) {
    int sides[2];
    handle(SIGPIPE, note, 0);
    if (pipe(sides) != 0) trace("no pipe");
    close(sides[0]);
    said("write to nobody", write(sides[1], "x", 1));
    close(sides[1]);
    if (socketpair(AF_UNIX, SOCK_STREAM, 0, sides) != 0) trace("no sockets");
    close(sides[0]);
    said("send to nobody", send(sides[1], "x", 1, 0));
    said("without a signal", send(sides[1], "x", 1, MSG_NOSIGNAL));
    close(sides[1]);
}

int main(void) {
    if (pipe(ends) != 0) trace("no pipe");
    counter = eventfd(0, 0);
    waits_of(0);
    waits_of(SA_RESTART);
    reads(0);
    reads(SA_RESTART);
    writes(0);
    ready(0);
    ready(SA_RESTART);
    self_pipe();
    self_event();
    two_waits();
    masks();
    kinds();
    broken_pipe();
    return 0;
}
