/* Waits with a time on real descriptors: a socket with a timeout, poll and select, alone and beside threads that sleep
   by the clock. The clock goes on by what each wait takes, and no faster. */
#include "trace.h"

#include <poll.h>
#include <stdatomic.h>
#include <stddef.h>
#include <stdint.h>
#include <stdlib.h>
#include <sys/select.h>
#include <sys/socket.h>
#include <sys/timerfd.h>
#include <sys/uio.h>
#include <sys/un.h>
#include <unistd.h>

enum { MOST_TURNS = 1000 };

static int real;
static struct sockaddr_un name;
static socklen_t name_size = sizeof name;

static void make_socket(void) {
    struct sockaddr_un any = {.sun_family = AF_UNIX};
    real = socket(AF_UNIX, SOCK_DGRAM, 0);
    if (real < 0 || bind(real, (struct sockaddr *)&any, sizeof any.sun_family) != 0 ||
        getsockname(real, (struct sockaddr *)&name, &name_size) != 0)
        trace("no socket");
}

/* ---- timeouts of a socket ---- */

static void set_timeout(int milliseconds) {
    struct timeval time = {milliseconds / 1000, milliseconds % 1000 * 1000};
    setsockopt(real, SOL_SOCKET, SO_RCVTIMEO, &time, sizeof time);
}

static ssize_t by_recv(void) {
    char byte;
    return recv(real, &byte, 1, 0);
}

static ssize_t by_read(void) {
    char byte;
    return read(real, &byte, 1);
}

static ssize_t by_recvmsg(void) {
    char byte;
    struct iovec vector = {&byte, 1};
    struct msghdr message = {.msg_iov = &vector, .msg_iovlen = 1};
    return recvmsg(real, &message, 0);
}

/* A program that receives until a time has passed. */
static void receive(const char *how, ssize_t (*receive_once)(void)) {
    long began = clock_now(), result = 0;
    int turns = 0;
    set_timeout(20);
    for (; clock_now() < began + 100 && turns < MOST_TURNS; turns++) result = outcome(receive_once());
    trace("%s: %ld, some turns until then: %d", how, result, turns >= 2 && turns <= 5);
}

/* What doesn't wait doesn't take its time. */
static void receive_nothing(void) {
    long began = clock_now();
    char byte;
    int turns;
    set_timeout(1000);
    for (turns = 0; turns < 10; turns++) recv(real, &byte, 1, MSG_DONTWAIT);
    trace("MSG_DONTWAIT: no time: %d", clock_now() - began < 900);
    set_timeout(0);
}

/* ---- timeouts of calls that take no bytes, or many messages ---- */

static int listener, waiting_one;
static struct sockaddr_un listener_name;
static socklen_t listener_size = sizeof listener_name;

/* One that has as many connections waiting as it may have. */
static void make_listener(void) {
    struct sockaddr_un any = {.sun_family = AF_UNIX};
    struct timeval time = {0, 20000};
    int first = socket(AF_UNIX, SOCK_STREAM, 0);
    listener = socket(AF_UNIX, SOCK_STREAM, 0);
    waiting_one = socket(AF_UNIX, SOCK_STREAM, 0);
    if (bind(listener, (struct sockaddr *)&any, sizeof any.sun_family) != 0 || listen(listener, 0) != 0 ||
        getsockname(listener, (struct sockaddr *)&listener_name, &listener_size) != 0 ||
        connect(first, (struct sockaddr *)&listener_name, listener_size) != 0)
        trace("no listener");
    setsockopt(waiting_one, SOL_SOCKET, SO_SNDTIMEO, &time, sizeof time);
}

static ssize_t by_connect(void) {
    return connect(waiting_one, (struct sockaddr *)&listener_name, listener_size);
}

static ssize_t by_accept(void) { return accept(real, NULL, NULL); }

static ssize_t by_accept4(void) { return accept4(real, NULL, NULL, SOCK_CLOEXEC); }

enum { MESSAGES = 40 };
static struct mmsghdr messages[MESSAGES];

static void make_messages(void) {
    static char bytes[MESSAGES];
    static struct iovec vectors[MESSAGES];
    for (int i = 0; i < MESSAGES; i++) {
        vectors[i] = (struct iovec){&bytes[i], 1};
        messages[i] = (struct mmsghdr){.msg_hdr = {.msg_iov = &vectors[i], .msg_iovlen = 1}};
    }
}

static ssize_t by_recvmmsg(void) { return recvmmsg(real, messages, MESSAGES, 0, NULL); }

/* The receiver of these has no room for more. */
static ssize_t by_sendmmsg(void) { return sendmmsg(waiting_one, messages, MESSAGES, 0); }

static void fill(void) {
    struct timeval time = {0, 20000};
    int receiver = real;
    ssize_t sent;
    waiting_one = socket(AF_UNIX, SOCK_DGRAM, 0);
    connect(waiting_one, (struct sockaddr *)&name, name_size);
    setsockopt(waiting_one, SOL_SOCKET, SO_SNDTIMEO, &time, sizeof time);
    sent = by_sendmmsg();
    trace("sendmmsg sends what has room: %d", sent > 0 && sent < MESSAGES);
    receive("sendmmsg", by_sendmmsg);
    while (sent > 0 && sent-- > 0) recv(receiver, &(char){0}, 1, MSG_DONTWAIT);
    close(waiting_one);
}

static void accept_and_connect(void) {
    int datagrams = real;
    make_listener();
    receive("connect", by_connect);
    real = listener;
    close(accept(listener, NULL, NULL));
    receive("accept", by_accept);
    receive("accept4", by_accept4);
    real = datagrams;
    close(listener);
    close(waiting_one);
}

static void *send_often(void *milliseconds) {
    int from = socket(AF_UNIX, SOCK_DGRAM, 0);
    for (int i = 0; i < 6; i++) {
        usleep((useconds_t)(long)milliseconds * 1000);
        sendto(from, "x", 1, 0, (struct sockaddr *)&name, name_size);
    }
    close(from);
    return NULL;
}

/* The time of recvmmsg is looked at when a message comes, and not before. How many come until then depends on how busy
   the machine is, unless `exact` says it. */
static void receive_until(long seconds, long each, unsigned int count, int exact, long least) {
    struct timespec time = {seconds, seconds > 0 ? 0 : 100000000};
    pthread_t sender;
    long began = clock_now(), took;
    int got;
    pthread_create(&sender, NULL, send_often, (void *)each);
    got = recvmmsg(real, messages, count, 0, &time);
    took = clock_now() - began;
    pthread_join(sender, NULL);
    while (recv(real, &(char){0}, 1, MSG_DONTWAIT) > 0) {}
    trace("recvmmsg of %u, one each %ld ms: %d, after %ld ms: %d, time is left: %d", count, each,
          exact > 0 ? got : got >= 1 && got <= 5, least, took >= least && took < least + 80,
          time.tv_sec > 0 || time.tv_nsec > 0);
}

/* ---- beside threads ---- */

static atomic_int ticks;
static atomic_bool is_over;

/* Ticks by a timer of 30 ms. */
static void *tick(void *nothing) {
    struct itimerspec each = {{0, 30000000}, {0, 30000000}};
    int timer = timerfd_create(CLOCK_MONOTONIC, 0);
    uint64_t count;
    timerfd_settime(timer, 0, &each, NULL);
    while (!atomic_load(&is_over) && read(timer, &count, sizeof count) == sizeof count)
        atomic_fetch_add(&ticks, (int)count);
    close(timer);
    return nothing;
}

static void *sleep_on(void *nothing) {
    while (!atomic_load(&is_over)) {
        usleep(30000);
        atomic_fetch_add(&ticks, 1);
    }
    return nothing;
}

static long by_poll(void) {
    struct pollfd file = {.fd = real, .events = POLLIN};
    return outcome(poll(&file, 1, 300));
}

static long by_ppoll(void) {
    struct pollfd file = {.fd = real, .events = POLLIN};
    return outcome(ppoll(&file, 1, &(struct timespec){0, 300000000}, NULL));
}

static long by_select(void) {
    fd_set reads;
    FD_ZERO(&reads);
    FD_SET(real, &reads);
    return outcome(select(real + 1, &reads, NULL, NULL, &(struct timeval){0, 300000}));
}

static long by_pselect(void) {
    fd_set reads;
    FD_ZERO(&reads);
    FD_SET(real, &reads);
    return outcome(pselect(real + 1, &reads, NULL, NULL, &(struct timespec){0, 300000000}, NULL));
}

static long by_timeout(void) {
    long result;
    set_timeout(300);
    result = outcome(by_recv());
    set_timeout(0);
    return result;
}

/* Another thread ticks as often as it does in 300 ms. */
static void wait_beside(const char *how, long (*wait_once)(void), void *(*other)(void *)) {
    pthread_t thread;
    long began, took, result;
    int until_then;
    atomic_store(&ticks, 0);
    atomic_store(&is_over, false);
    began = clock_now();
    pthread_create(&thread, NULL, other, NULL);
    result = wait_once();
    took = clock_now() - began;
    until_then = atomic_load(&ticks);
    atomic_store(&is_over, true);
    pthread_join(thread, NULL);
    trace("%s: %ld, after 300 ms: %d, ticks: %d", how, result, took >= 299 && took < 360,
          until_then >= 8 && until_then <= 11);
}

/* ---- what comes from outside ---- */

static void *send_later(void *nothing) {
    int from = socket(AF_UNIX, SOCK_DGRAM, 0);
    usleep(20000);
    if (sendto(from, "x", 1, 0, (struct sockaddr *)&name, name_size) != 1) trace("nothing is sent");
    close(from);
    return nothing;
}

static void find(const char *how, int timeout) {
    struct pollfd file = {.fd = real, .events = POLLIN};
    pthread_t thread;
    long began = clock_now(), took;
    int found;
    pthread_create(&thread, NULL, send_later, NULL);
    do found = poll(&file, 1, timeout);
    while (found == 0);
    took = clock_now() - began;
    pthread_join(thread, NULL);
    trace("%s: %d, received: %ld, after 20 ms: %d", how, found, outcome(by_recv()), took >= 20 && took < 900);
}

int main(void) {
    make_socket();
    receive("recv", by_recv);
    receive("read", by_read);
    receive("recvmsg", by_recvmsg);
    make_messages();
    receive("recvmmsg", by_recvmmsg);
    fill();
    accept_and_connect();
    receive_nothing();
    receive_until(0, 30, MESSAGES, 0, 100);
    receive_until(10, 20, 2, 2, 40);
    receive_until(0, 300, MESSAGES, 1, 300);
    wait_beside("poll beside a timer", by_poll, tick);
    wait_beside("ppoll beside a sleep", by_ppoll, sleep_on);
    wait_beside("select beside a sleep", by_select, sleep_on);
    wait_beside("pselect beside a timer", by_pselect, tick);
    wait_beside("recv with a timeout beside a timer", by_timeout, tick);
    receive("recv, with threads", by_recv);
    find("poll of 10 s", 10000);
    find("poll of no time", 0);
    return 0;
}
