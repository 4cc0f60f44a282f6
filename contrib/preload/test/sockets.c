/* Options of sockets, flags of recv and send, and shutdown. */
#include "trace.h"

#include <fcntl.h>
#include <signal.h>
#include <string.h>
#include <sys/epoll.h>
#include <sys/ioctl.h>
#include <sys/socket.h>
#include <sys/time.h>
#include <sys/uio.h>
#include <netinet/in.h>
#include <netinet/tcp.h>
#include <unistd.h>

static int sides[2];
static volatile sig_atomic_t came;

static void note(int signal) {
    (void)signal;
    came++;
}

static void open_sides(void) {
    if (socketpair(AF_UNIX, SOCK_STREAM, 0, sides) != 0) trace("no sockets");
}

static void close_sides(void) {
    for (int i = 0; i < 2; i++) close(sides[i]);
}

/* ---- options ---- */

static void show(const char *name, int option) {
    int value = -1;
    socklen_t size = sizeof value;
    long result = outcome(getsockopt(sides[0], SOL_SOCKET, option, &value, &size));
    trace("%s: %ld, %d, of %u bytes", name, result, value, (unsigned int)size);
}

static void change(const char *name, int option, int value) {
    long result = outcome(setsockopt(sides[0], SOL_SOCKET, option, &value, sizeof value));
    trace("set %s to %d: %ld", name, value, result);
    show(name, option);
}

#define SHOW(option) show(#option, option)
#define CHANGE(option, value) change(#option, option, value)

static void numbers(void) {
    SHOW(SO_TYPE);
    SHOW(SO_DOMAIN);
    SHOW(SO_PROTOCOL);
    SHOW(SO_ACCEPTCONN);
    SHOW(SO_ERROR);
    SHOW(SO_SNDBUF);
    SHOW(SO_RCVBUF);
    SHOW(SO_KEEPALIVE);
    SHOW(SO_REUSEADDR);
    SHOW(SO_RCVLOWAT);
    SHOW(SO_SNDLOWAT);
    SHOW(SO_PASSCRED);
    SHOW(SO_PRIORITY);
    CHANGE(SO_SNDBUF, 10000);
    CHANGE(SO_RCVBUF, 100000);
    CHANGE(SO_RCVBUF, 1);
    CHANGE(SO_SNDBUF, 1);
    CHANGE(SO_KEEPALIVE, 1);
    CHANGE(SO_KEEPALIVE, 0);
    CHANGE(SO_REUSEADDR, 5);
    CHANGE(SO_BROADCAST, 1);
    CHANGE(SO_DONTROUTE, 1);
    CHANGE(SO_OOBINLINE, 1);
    CHANGE(SO_PRIORITY, 3);
    CHANGE(SO_TYPE, SOCK_DGRAM);
    CHANGE(SO_ERROR, 1);
}

static void structures(void) {
    struct ucred peer = {0, 0, 0};
    struct linger linger = {9, 9};
    struct timeval time = {9, 9};
    char byte = 9;
    int on = 1;
    socklen_t size = sizeof peer;
    trace("SO_PEERCRED: %ld", outcome(getsockopt(sides[0], SOL_SOCKET, SO_PEERCRED, &peer, &size)));
    trace("this process: %d", peer.pid == getpid() && peer.uid == geteuid() && peer.gid == getegid());
    size = sizeof linger;
    trace("SO_LINGER: %ld", outcome(getsockopt(sides[0], SOL_SOCKET, SO_LINGER, &linger, &size)));
    trace("%d, %d", linger.l_onoff, linger.l_linger);
    linger = (struct linger){7, 30};
    trace("set: %ld", outcome(setsockopt(sides[0], SOL_SOCKET, SO_LINGER, &linger, sizeof linger)));
    getsockopt(sides[0], SOL_SOCKET, SO_LINGER, &linger, &size);
    trace("%d, %d", linger.l_onoff, linger.l_linger);
    size = sizeof time;
    trace("SO_RCVTIMEO: %ld", outcome(getsockopt(sides[0], SOL_SOCKET, SO_RCVTIMEO, &time, &size)));
    trace("%ld, %ld", (long)time.tv_sec, (long)time.tv_usec);
    time = (struct timeval){0, 1000000};
    trace("no time: %ld", outcome(setsockopt(sides[0], SOL_SOCKET, SO_RCVTIMEO, &time, sizeof time)));
    size = 1;
    trace("short: %ld", outcome(getsockopt(sides[0], SOL_SOCKET, SO_TYPE, &byte, &size)));
    trace("%d, %u", byte, (unsigned int)size);
    trace("too short: %ld", outcome(setsockopt(sides[0], SOL_SOCKET, SO_KEEPALIVE, &on, 1)));
    trace("of TCP: %ld", outcome(setsockopt(sides[0], IPPROTO_TCP, TCP_NODELAY, &on, sizeof on)));
    size = sizeof on;
    trace("of TCP: %ld", outcome(getsockopt(sides[0], IPPROTO_TCP, TCP_NODELAY, &on, &size)));
    trace("of nobody: %ld", outcome(setsockopt(-1, SOL_SOCKET, SO_KEEPALIVE, &on, sizeof on)));
}

/* ---- times ---- */

static void times(void) {
    static char much[300000];
    struct timeval time = {0, 200000};
    struct itimerval alarm_at = {.it_value = {0, 100000}};
    struct sigaction action = {.sa_handler = note, .sa_flags = SA_RESTART};
    char byte;
    long began = clock_now();
    open_sides();
    setsockopt(sides[0], SOL_SOCKET, SO_RCVTIMEO, &time, sizeof time);
    setsockopt(sides[0], SOL_SOCKET, SO_SNDTIMEO, &time, sizeof time);
    trace("recv: %ld", outcome(recv(sides[0], &byte, 1, 0)));
    trace("after 200 ms: %d", clock_now() - began >= 200);
    trace("read: %ld", outcome(read(sides[0], &byte, 1)));
    trace("part: %d", send(sides[0], much, sizeof much, 0) < (ssize_t)sizeof much);
    began = clock_now();
    trace("full: %ld", outcome(send(sides[0], much, sizeof much, 0)));
    trace("after 200 ms: %d", clock_now() - began >= 200);
    /* With a time, no handler lets it begin again. */
    sigaction(SIGALRM, &action, NULL);
    setitimer(ITIMER_REAL, &alarm_at, NULL);
    trace("broken: %ld", outcome(recv(sides[0], &byte, 1, 0)));
    trace("%d came", (int)came);
    close_sides();
}

/* ---- flags ---- */

static void *send_late(void *nothing) {
    usleep(100000);
    if (send(sides[1], "late", 4, 0) != 4) trace("not sent");
    usleep(100000);
    if (send(sides[1], "st", 2, 0) != 2) trace("not sent");
    return nothing;
}

static void peeks(void) {
    struct epoll_event event = {.events = EPOLLIN};
    char bytes[16] = "";
    struct iovec vector = {bytes, sizeof bytes};
    struct msghdr message = {.msg_iov = &vector, .msg_iovlen = 1};
    pthread_t thread;
    int instance = epoll_create1(0), waiting = 0;
    ssize_t got;
    open_sides();
    epoll_ctl(instance, EPOLL_CTL_ADD, sides[0], &event);
    trace("nothing: %ld", outcome(recv(sides[0], bytes, 1, MSG_PEEK | MSG_DONTWAIT)));
    send(sides[1], "hello", 5, 0);
    got = recv(sides[0], bytes, 3, MSG_PEEK);
    trace("peek: %.*s", (int)got, bytes);
    got = recvmsg(sides[0], &message, MSG_PEEK);
    trace("more: %.*s", (int)got, bytes);
    ioctl(sides[0], FIONREAD, &waiting);
    trace("waiting: %d, ready: %d", waiting, epoll_wait(instance, &event, 1, 0));
    got = recv(sides[0], bytes, 2, 0);
    trace("taken: %.*s", (int)got, bytes);
    got = recv(sides[0], bytes, sizeof bytes, MSG_PEEK);
    trace("the rest: %.*s", (int)got, bytes);
    got = recv(sides[0], bytes, sizeof bytes, 0);
    trace("taken: %.*s, ready: %d", (int)got, bytes, epoll_wait(instance, &event, 1, 0));
    pthread_create(&thread, NULL, send_late, NULL);
    got = recv(sides[0], bytes, sizeof bytes, MSG_PEEK);
    trace("waited for: %.*s", (int)got, bytes);
    got = recv(sides[0], bytes, 6, MSG_WAITALL);
    trace("all: %.*s", (int)got, bytes);
    pthread_join(thread, NULL);
    shutdown(sides[1], SHUT_WR);
    trace("end: %ld", outcome(recv(sides[0], bytes, sizeof bytes, MSG_PEEK)));
    trace("end: %ld", outcome(recv(sides[0], bytes, sizeof bytes, MSG_WAITALL)));
    close(instance);
    close_sides();
}

/* Through the wrap of what is kept, many times over. */
static void peek_much(void) {
    char out[3000], in[3000], seen[3000];
    int wrong = 0;
    unsigned char next = 0, wanted = 0;
    open_sides();
    for (int turn = 0; turn < 300; turn++) {
        size_t size = (size_t)(turn * 37 % 2900) + 1, most = (size_t)(turn * 53 % 2900) + 1;
        for (size_t i = 0; i < size; i++) out[i] = (char)next++;
        if (send(sides[1], out, size, MSG_DONTWAIT) != (ssize_t)size) next = (unsigned char)(next - size);
        ssize_t peeked = recv(sides[0], seen, most, MSG_PEEK | MSG_DONTWAIT);
        ssize_t got = recv(sides[0], in, most, MSG_DONTWAIT);
        wrong += peeked != got || (got > 0 && memcmp(seen, in, (size_t)got) != 0);
        for (ssize_t i = 0; i < got; i++) wrong += (unsigned char)in[i] != wanted++;
    }
    trace("wrong: %d", wrong);
    close_sides();
}

/* ---- shutdown ---- */

static uint32_t shown(int instance) {
    struct epoll_event event = {.events = 0};
    return epoll_wait(instance, &event, 1, 0) == 1 ? event.events : 0;
}

static void shutdowns(int how) {
    struct epoll_event event = {.events = EPOLLIN | EPOLLOUT | EPOLLRDHUP};
    char bytes[8];
    int here = epoll_create1(0), there = epoll_create1(0);
    open_sides();
    epoll_ctl(here, EPOLL_CTL_ADD, sides[0], &event);
    epoll_ctl(there, EPOLL_CTL_ADD, sides[1], &event);
    send(sides[1], "abc", 3, 0);
    trace("shutdown %d: %ld", how, outcome(shutdown(sides[0], how)));
    trace("shows %#x and %#x", shown(here), shown(there));
    trace("recv: %ld", outcome(recv(sides[0], bytes, 8, 0)));
    trace("recv: %ld", outcome(recv(sides[0], bytes, 8, MSG_DONTWAIT)));
    trace("send: %ld", outcome(send(sides[0], "x", 1, MSG_NOSIGNAL)));
    trace("from there: %ld", outcome(send(sides[1], "x", 1, MSG_NOSIGNAL)));
    trace("there: %ld", outcome(recv(sides[1], bytes, 8, MSG_DONTWAIT)));
    trace("again: %ld", outcome(shutdown(sides[0], how)));
    close(sides[1]);
    trace("alone: %ld", outcome(shutdown(sides[0], how)));
    close(sides[0]);
    close(here);
    close(there);
}

int main(void) {
    open_sides();
    numbers();
    structures();
    close_sides();
    times();
    peeks();
    peek_much();
    shutdowns(SHUT_RD);
    shutdowns(SHUT_WR);
    shutdowns(SHUT_RDWR);
    open_sides();
    trace("not so: %ld", outcome(shutdown(sides[0], 3)));
    close_sides();
    return 0;
}
