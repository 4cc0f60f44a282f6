/* Pointers that lead nowhere, into a page without rights, and into one that can't be written to. Each call answers
   EFAULT, and nothing is lost. A program's own handler of SIGSEGV hears of its own faults only. */
#include "trace.h"

#include <fcntl.h>
#include <poll.h>
#include <setjmp.h>
#include <signal.h>
#include <spawn.h>
#include <stdint.h>
#include <stdio.h>
#include <string.h>
#include <sys/epoll.h>
#include <sys/eventfd.h>
#include <sys/ioctl.h>
#include <sys/mman.h>
#include <sys/resource.h>
#include <sys/select.h>
#include <sys/socket.h>
#include <sys/stat.h>
#include <sys/syscall.h>
#include <sys/time.h>
#include <sys/timerfd.h>
#include <sys/uio.h>
#include <sys/wait.h>
#include <unistd.h>

static int instance, counter, timer, ends[2], sides[2];
static sigjmp_buf out;
static volatile int faults;

static void jump(int signal) {
    (void)signal;
    faults++;
    siglongjmp(out, 1);
}

/* ---- what is read from a pointer ---- */

static long in_epoll_ctl(void *bad) { return epoll_ctl(instance, EPOLL_CTL_MOD, ends[0], bad); }
static long in_deletion(void *bad) { return epoll_ctl(instance, EPOLL_CTL_DEL, counter, bad); }
static long in_epoll_pwait(void *bad) { return epoll_pwait(instance, &(struct epoll_event){0}, 1, 0, bad); }
static long in_epoll_pwait2(void *bad) { return epoll_pwait2(instance, &(struct epoll_event){0}, 1, bad, NULL); }
static long in_write(void *bad) { return write(ends[1], bad, 8); }
static long in_writev(void *bad) { return writev(ends[1], bad, 1); }
static long in_writev_part(void *bad) { return writev(ends[1], &(struct iovec){bad, 8}, 1); }
static long in_eventfd(void *bad) { return write(counter, bad, 8); }
static long in_send(void *bad) { return send(sides[0], bad, 8, 0); }
static long in_sendmsg(void *bad) { return sendmsg(sides[0], bad, 0); }
static long in_sendmsg_part(void *bad) {
    struct iovec one = {bad, 8};
    return sendmsg(sides[0], &(struct msghdr){.msg_iov = &one, .msg_iovlen = 1}, 0);
}
static long in_ppoll(void *bad) { return ppoll(NULL, 0, &(struct timespec){0, 0}, bad); }
static long in_timerfd(void *bad) { return timerfd_settime(timer, 0, bad, NULL); }
static long in_nanosleep(void *bad) { return nanosleep(bad, NULL); }
static long in_option(void *bad) { return setsockopt(sides[0], SOL_SOCKET, SO_KEEPALIVE, bad, 4); }
static long in_nonblocking(void *bad) { return ioctl(ends[0], FIONBIO, bad); }
static long in_timer(void *bad) { return setitimer(ITIMER_REAL, bad, NULL); }
static long in_limit(void *bad) { return setrlimit(RLIMIT_NOFILE, bad); }
static long in_sigsuspend(void *bad) { return sigsuspend(bad); }
static long in_open(void *bad) { return open(bad, O_RDONLY); }
static long in_fopen(void *bad) { return fopen(bad, "r") ? 0 : -1; }
static long in_readlink(void *bad) { return readlink(bad, (char[8]){0}, 8); }
static long in_execve(void *bad) { return execve(bad, (char *[]){"none", NULL}, environ); }
static long in_environment(void *bad) {
    errno = posix_spawn(&(pid_t){0}, "/bin/true", NULL, NULL, (char *[]){"true", NULL}, bad);
    return errno == 0 ? 0 : -1;
}

/* ---- what is written to one ---- */

static long to_epoll_wait(void *bad) { return epoll_wait(instance, bad, 1, 0); }
static long to_read(void *bad) { return read(ends[0], bad, 8); }
static long to_readv_part(void *bad) { return readv(ends[0], &(struct iovec){bad, 8}, 1); }
static long to_recv(void *bad) { return recv(sides[0], bad, 8, 0); }
static long to_peek(void *bad) { return recv(sides[0], bad, 8, MSG_PEEK); }
static long to_recvmsg(void *bad) { return recvmsg(sides[0], bad, 0); }
static long to_recvmsg_part(void *bad) {
    struct iovec one = {bad, 8};
    return recvmsg(sides[0], &(struct msghdr){.msg_iov = &one, .msg_iovlen = 1}, 0);
}
static long to_poll(void *bad) { return poll(bad, 1, 0); }
static long to_select(void *bad) { return select(600, bad, NULL, NULL, &(struct timeval){0, 0}); }
static long to_pipe(void *bad) { return pipe(bad); }
static long to_socketpair(void *bad) { return socketpair(AF_UNIX, SOCK_STREAM, 0, bad); }
static long to_timerfd(void *bad) { return timerfd_settime(timer, 0, &(struct itimerspec){.it_value = {9, 0}}, bad); }
static long to_timerfd_gettime(void *bad) { return timerfd_gettime(timer, bad); }
static long to_option(void *bad) { return getsockopt(sides[0], SOL_SOCKET, SO_TYPE, bad, &(socklen_t){4}); }
static long to_option_size(void *bad) { return getsockopt(sides[0], SOL_SOCKET, SO_TYPE, &(int){0}, bad); }
static long to_unread(void *bad) { return ioctl(ends[0], FIONREAD, bad); }
static long to_fstat(void *bad) { return fstat(ends[0], bad); }
static long to_name(void *bad) { return getsockname(sides[0], bad, &(socklen_t){16}); }
static long to_timer(void *bad) { return getitimer(ITIMER_REAL, bad); }
static long to_limit(void *bad) { return getrlimit(RLIMIT_NOFILE, bad); }
static long to_times(void *bad) { return syscall(SYS_times, bad); }

/* As on Linux, the child is gone. */
static long end_child(long (*wait_for)(pid_t child, void *bad), void *bad) {
    pid_t child = fork();
    long result;
    if (child == 0) _exit(3);
    result = outcome(wait_for(child, bad));
    trace("waited: %ld, again: %ld", result, outcome(waitpid(child, NULL, 0)));
    errno = (int)-result;
    return result < 0 ? -1 : result;
}

static long by_wait4(pid_t child, void *bad) { return wait4(child, bad, 0, NULL); }
static long by_wait4_usage(pid_t child, void *bad) { return wait4(child, NULL, 0, bad); }
static long by_waitid(pid_t child, void *bad) { return waitid(P_PID, (id_t)child, bad, WEXITED); }
static long to_wait4(void *bad) { return end_child(by_wait4, bad); }
static long to_wait4_usage(void *bad) { return end_child(by_wait4_usage, bad); }
static long to_waitid(void *bad) { return end_child(by_waitid, bad); }

#define CALL(name) {#name, name}
static const struct {
    const char *name;
    long (*call)(void *bad);
} calls[] = {CALL(in_epoll_ctl),  CALL(in_epoll_pwait),   CALL(in_epoll_pwait2), CALL(in_write),
             CALL(in_writev),     CALL(in_writev_part),   CALL(in_eventfd),      CALL(in_send),
             CALL(in_sendmsg),    CALL(in_sendmsg_part),  CALL(in_ppoll),        CALL(in_timerfd),
             CALL(in_nanosleep),  CALL(in_option),        CALL(in_nonblocking),  CALL(in_timer),
             CALL(in_limit),      CALL(in_sigsuspend),    CALL(to_epoll_wait),   CALL(to_read),
             CALL(to_readv_part), CALL(to_recv),          CALL(to_peek),         CALL(to_recvmsg),
             CALL(to_poll),       CALL(to_recvmsg_part),  CALL(to_select),       CALL(to_pipe),
             CALL(to_socketpair), CALL(to_timerfd),       CALL(to_fstat),        CALL(to_timerfd_gettime),
             CALL(to_option),     CALL(to_option_size),   CALL(to_unread),       CALL(to_name),
             CALL(to_timer),      CALL(to_limit),         CALL(in_deletion),     CALL(in_open),
             CALL(in_fopen),      CALL(in_readlink),      CALL(in_execve),       CALL(in_environment),
             CALL(to_times),      CALL(to_wait4),         CALL(to_wait4_usage),  CALL(to_waitid)};

static void call_all(const char *where, void *bad, const char *kind) {
    for (size_t i = 0; i < sizeof calls / sizeof *calls; i++)
        if (strncmp(calls[i].name, kind, strlen(kind)) == 0)
            trace("%s, %s: %ld", calls[i].name, where, outcome(calls[i].call(bad)));
}

/* A buffer that ends at a bad page is good for what there is, and one that begins there isn't. A path goes up to its
   end. */
static void at_an_end(char *page) {
    char bytes[8], *path = page + 4096 - 8;
    memcpy(path, "/dev/fd/", 8);
    trace("a path without an end: %ld", outcome(open(path, O_RDONLY)));
    memcpy(path, "/no/fil", 8);
    trace("a path up to the end: %ld", outcome(open(path, O_RDONLY)));
    trace("up to the end: %ld", outcome(write(ends[1], page + 4090, 6)));
    trace("past the end: %ld", outcome(write(ends[1], page + 4090, 7)));
    trace("read of more: %ld", outcome(read(ends[0], bytes, 8)));
    trace("read of what is there: %ld", outcome(read(ends[0], page + 4090, 4096)));
    trace("recv: %ld, %.8s", outcome(recv(sides[0], bytes, 8, 0)), bytes);
}

int main(void) {
    struct epoll_event event = {.events = EPOLLIN};
    char *pages = mmap(NULL, 3 * 4096, PROT_READ | PROT_WRITE, MAP_PRIVATE | MAP_ANONYMOUS, -1, 0);
    mprotect(pages + 4096, 4096, PROT_NONE);
    mprotect(pages + 2 * 4096, 4096, PROT_READ);
    instance = epoll_create1(0);
    counter = eventfd(0, 0);
    timer = timerfd_create(CLOCK_MONOTONIC, 0);
    signal(SIGSEGV, jump);
    if (pipe(ends) != 0 || socketpair(AF_UNIX, SOCK_STREAM, 0, sides) != 0) trace("no ends");
    if (write(ends[1], "kept all", 8) != 8 || send(sides[1], "kept all", 8, 0) != 8) trace("not written");
    epoll_ctl(instance, EPOLL_CTL_ADD, ends[0], &event);
    call_all("no rights", pages + 4096, "");
    call_all("nowhere", (void *)8, "");
    call_all("read only", pages + 2 * 4096, "to_");
    trace("a fault of its own: %d", faults);
    if (sigsetjmp(out, 1) == 0) *(volatile char *)(pages + 4096) = 1;
    trace("is heard of: %d", faults);
    at_an_end(pages);
    usleep(1000);
    trace("end");
    return 0;
}
