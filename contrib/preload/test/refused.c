/* What the shim refuses: each call with its error, and the line on standard error that says so. Simulated only;
   refused.out is what both streams have to say. */
#include "trace.h"

#include <fcntl.h>
#include <poll.h>
#include <signal.h>
#include <stdlib.h>
#include <sys/epoll.h>
#include <sys/select.h>
#include <sys/ioctl.h>
#include <sys/sendfile.h>
#include <sys/socket.h>
#include <sys/syscall.h>
#include <sys/uio.h>
#include <unistd.h>

static void tell(const char *call, long result) {
    printf("%s: %ld\n", call, outcome(result));
    fflush(stdout);
}

static void descriptors(void) {
    struct epoll_event event = {.events = EPOLLIN};
    struct pollfd files[2] = {{0, POLLIN, 0}, {0, POLLIN, 0}};
    int ends[2], instance = epoll_create1(0);
    fd_set reads;
    sigset_t mask;
    sigemptyset(&mask);
    tell("pipe", pipe(ends));
    tell("add a real one", epoll_ctl(instance, EPOLL_CTL_ADD, 0, &event));
    tell("add to a real one", epoll_ctl(0, EPOLL_CTL_ADD, ends[0], &event));
    files[0].fd = socket(AF_UNIX, SOCK_DGRAM, 0);
    files[1].fd = ends[0];
    tell("poll of both", poll(files, 2, 1000));
    FD_ZERO(&reads);
    FD_SET(files[0].fd, &reads);
    FD_SET(files[1].fd, &reads);
    tell("select of both", select(ends[0] + 1, &reads, NULL, NULL, NULL));
    close(files[0].fd);
    tell("onto a real one", dup2(ends[1], 1));
    tell("room", fcntl(ends[0], F_GETPIPE_SZ));
    tell("the same", fcntl(ends[0], F_SETPIPE_SZ, 65000));
    tell("more", fcntl(ends[1], F_SETPIPE_SZ, 65537));
    tell("less", fcntl(ends[1], F_SETPIPE_SZ, 4097));
    tell("is told", fcntl(ends[0], F_GETPIPE_SZ));
    tell("of an instance", fcntl(instance, F_GETPIPE_SZ));
    tell("lock", fcntl(ends[0], F_SETLEASE, F_RDLCK));
    tell("ioctl", ioctl(ends[0], TIOCGWINSZ, &mask));
    tell("pread", pread(ends[0], &mask, 1, 0));
    tell("tee", tee(ends[0], ends[1], 1, 0));
    tell("sendfile", sendfile(1, ends[0], NULL, 1));
    tell("a number of nobody", (close(ends[0]), read(ends[0], &mask, 1)));
}

static void sockets(void) {
    char bytes[4];
    int sides[2], on = 1;
    socklen_t size = sizeof on;
    tell("datagrams", socketpair(AF_UNIX, SOCK_DGRAM, 0, sides));
    tell("socketpair", socketpair(AF_UNIX, SOCK_STREAM, 0, sides));
    tell("out of band", recv(sides[0], bytes, 1, MSG_OOB));
    tell("out of band", send(sides[0], bytes, 1, MSG_OOB));
    tell("peek at all", recv(sides[0], bytes, 1, MSG_PEEK | MSG_WAITALL));
    tell("option", setsockopt(sides[0], SOL_SOCKET, SO_PASSCRED, &on, sizeof on));
    tell("another one", getsockopt(sides[0], SOL_SOCKET, SO_PEERSEC, &on, &size));
    tell("accept", accept(sides[0], NULL, NULL));
}

static void timers(void) {
    struct sigevent event = {.sigev_notify = SIGEV_THREAD};
    timer_t timer;
    tell("threads of a timer", timer_create(CLOCK_MONOTONIC, &event, &timer));
    tell("timer by number", syscall(SYS_timer_create, CLOCK_MONOTONIC, NULL, &timer));
    tell("handler by number", syscall(SYS_rt_sigaction, SIGUSR1, NULL, NULL, 8));
}

static void processes(void) {
    char *const words[] = {"true", NULL};
    tell("fork by number", syscall(SYS_fork));
    tell("execv", execv("/bin/true", words));
    tell("by number", syscall(SYS_execve, "/bin/true", words, NULL));
    tell("io_uring", syscall(SYS_io_uring_setup, 1, NULL));
    tell("by number", syscall(SYS_epoll_create1, 0));
}

__attribute__((noinline)) static long by_number(long number) { return syscall(number, 0, 0); }

/* A line comes once for each call and place, whatever its arguments, and a count at the end. */
static void again(void) {
    int result = 0;
    for (int i = 0; i < 1000; i++) result = daemon(0, 0);
    tell("a thousand at one place", result);
    tell("and at another one", daemon(0, 0));
    for (int i = 0; i < 3; i++) result = pread(517 + i % 2, &result, 1, 0);
    tell("of different numbers", result);
    by_number(SYS_epoll_create1);
    by_number(SYS_pipe2);
    result = (int)by_number(SYS_epoll_create1);
    tell("of different calls", result);
}

int main(void) {
    struct epoll_event event;
    descriptors();
    sockets();
    timers();
    processes();
    again();
    tell("no end", epoll_wait(epoll_create1(0), &event, 1, -1));
    return 0;
}
