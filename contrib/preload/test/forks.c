/* Forks that are refused, and those that aren't made, for want of processes or of descriptors. */
#include "child.h"
#include "trace.h"

#include <fcntl.h>
#include <sched.h>
#include <signal.h>
#include <spawn.h>
#include <stdlib.h>
#include <stdint.h>
#include <string.h>
#include <sys/epoll.h>
#include <sys/eventfd.h>
#include <sys/resource.h>
#include <sys/syscall.h>
#include <sys/timerfd.h>
#include <sys/wait.h>
#include <unistd.h>

extern char **environ;

static void tell(const char *name, long result) {
    printf("%s: %ld\n", name, outcome(result));
    fflush(stdout);
}

static int run(void *nothing) {
    (void)nothing;
    return 0;
}

static void refused(void) {
    static char stack[4096];
    char *const words[] = {"true", NULL};
    tell("clone", clone(run, stack + sizeof stack, SIGCHLD, NULL));
    tell("clone by number", syscall(SYS_clone, SIGCHLD, NULL, NULL, NULL, NULL));
    tell("clone3", syscall(SYS_clone3, NULL, 0));
    tell("exec", execv("/bin/true", words));
    tell("execlp", execlp("true", "true", NULL));
    tell("daemon", daemon(1, 1));
}

static pid_t sleeper(void) {
    pid_t child = fork();
    if (child == 0) {
        sleep(1000);
        _exit(0);
    }
    return child;
}

/* One process of 64 is the program's own. */
static void more_than_processes(void) {
    pid_t children[64], last;
    int count = 0, ended = 0;
    while (count < 64 && (children[count] = sleeper()) > 0) count++;
    tell("the next one", -1);
    printf("children: %d\n", count);
    tell("posix_spawn", posix_spawn(&last, "/bin/true", NULL, NULL, (char *[]){"true", NULL}, environ));
    for (int i = 0; i < count; i++) {
        send_to(children[i], SIGKILL);
        ended += waitpid(children[i], NULL, 0) == children[i];
    }
    printf("ended: %d\n", ended);
    last = sleeper();
    printf("one more: %d\n", last > 0);
    send_to(last, SIGKILL);
    waitpid(last, NULL, 0);
}

/* The real limit has room for a few descriptors above those that the program can name. The first of them is that of the
   history. */
static void low_limit(void) {
    struct rlimit limit = {1500, 1541};
    int ends[2], more[2];
    char byte = 'x';
    pid_t child;
    pipe(ends);
    tell("limit", setrlimit(RLIMIT_NOFILE, &limit));
    pipe(more);
    tell("two pipes", fork());
    tell("nobody to wait for", waitpid(-1, NULL, WNOHANG));
    close(more[0]), close(more[1]);
    close(ends[0]);
    child = fork();
    if (child == 0) _exit(3);
    printf("one end: %d\n", child > 0);
    tell("it ended", waitpid(child, NULL, 0) == child ? 0 : -1);
    tell("the pipe has no reader", write(ends[1], &byte, 1));
    close(ends[1]);
}

/* What a child doesn't have. A close is answered as if it did. */
static _Noreturn void be_without(int event, int timer, int instance) {
    struct epoll_event wanted = {.events = EPOLLIN};
    struct itimerspec setting;
    uint64_t count = 1;
    int own = epoll_create1(0), file = open("/dev/null", O_RDONLY);
    tell("write", write(event, &count, sizeof count));
    tell("read", read(event, &count, sizeof count));
    tell("read", read(event, &count, sizeof count));
    tell("dup", dup(event));
    tell("fcntl", fcntl(event, F_GETFD));
    tell("timerfd_gettime", timerfd_gettime(timer, &setting));
    tell("epoll_wait", epoll_wait(instance, &wanted, 1, 0));
    tell("epoll_ctl", epoll_ctl(instance, EPOLL_CTL_ADD, file, &wanted));
    tell("in one of its own", epoll_ctl(own, EPOLL_CTL_ADD, event, &wanted));
    tell("close", close(event));
    tell("then", close(event));
    tell("read", read(event, &count, sizeof count));
    tell("another file there", dup2(file, timer));
    tell("read", read(timer, &count, sizeof count));
    tell("close", close(timer));
    tell("then", close(timer));
    tell("others", close(1000));
    _exit(0);
}

static void without(void) {
    int event = eventfd(0, 0), timer = timerfd_create(CLOCK_MONOTONIC, 0), instance = epoll_create1(0);
    pid_t child = fork();
    if (child == 0) be_without(event, timer, instance);
    printf("it ended: %d\n", end_of(child));
    fflush(stdout);
    close(event), close(timer), close(instance);
}

int main(void) {
    signal(SIGPIPE, SIG_IGN);
    without();
    refused();
    more_than_processes();
    low_limit();
    return 0;
}
