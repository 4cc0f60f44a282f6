/* How programs hear of the end of a child, beside waiting for it: by a signal that ends another wait, by a time that
   comes meanwhile, and in one thread for another. */
#include "child.h"
#include "trace.h"

#include <fcntl.h>
#include <poll.h>
#include <semaphore.h>
#include <signal.h>
#include <stdlib.h>
#include <string.h>
#include <sys/epoll.h>
#include <sys/select.h>
#include <sys/signalfd.h>
#include <sys/time.h>
#include <sys/wait.h>
#include <unistd.h>

static volatile sig_atomic_t came;

static void on_signal(int signal) {
    (void)signal;
    came++;
}

static void hear(int signal, int flags) {
    struct sigaction action = {.sa_handler = on_signal, .sa_flags = flags};
    sigaction(signal, &action, NULL);
    came = 0;
}

/* The state of the parent, as /proc tells it; S if it sleeps. */
static char state_of_parent(void) {
    char name[64], text[512] = "", *end;
    int fd;
    snprintf(name, sizeof name, "/proc/%d/stat", getppid());
    fd = open(name, O_RDONLY);
    if (fd < 0 || read(fd, text, sizeof text - 1) <= 0) _exit(100);
    close(fd);
    end = strrchr(text, ')');
    return end ? end[2] : '?';
}

/* So its end comes in the wait that follows, however busy the machine is. */
static void await_sleep(void) {
    for (int times = 0; times < 10; usleep(5000)) times = state_of_parent() == 'S' ? times + 1 : 0;
}

static pid_t soon(int status) {
    pid_t child = fork();
    if (child != 0) return child;
    await_sleep();
    _exit(status);
}

static pid_t never(void) {
    pid_t child = fork();
    if (child != 0) return child;
    sleep(1000);
    _exit(0);
}

static void end_never(pid_t child) {
    send_to(child, SIGKILL);
    trace("killed: %d", end_of(child));
}

/* ---- a signal ends a wait ---- */

static sigset_t only(int signal) {
    sigset_t set;
    sigemptyset(&set);
    sigaddset(&set, signal);
    return set;
}

/* SIGCHLD is blocked but in the wait. */
static void in_waits_with_masks(void) {
    sigset_t child_ends = only(SIGCHLD), before;
    int instance = epoll_create1(0), ends[2];
    struct epoll_event event = {.events = EPOLLIN};
    struct pollfd file;
    fd_set set;
    pid_t child;
    pipe(ends);
    file = (struct pollfd){ends[0], POLLIN, 0};
    epoll_ctl(instance, EPOLL_CTL_ADD, ends[0], &event);
    hear(SIGCHLD, 0);
    sigprocmask(SIG_BLOCK, &child_ends, &before);
    child = soon(1);
    trace("sigsuspend: %ld", outcome(sigsuspend(&before)));
    trace("came: %d, its end: %d", came, end_of(child));
    child = soon(2);
    trace("epoll_pwait: %ld", outcome(epoll_pwait(instance, &event, 1, 60000, &before)));
    trace("came: %d, its end: %d", came, end_of(child));
    child = soon(3);
    trace("ppoll: %ld", outcome(ppoll(&file, 1, NULL, &before)));
    trace("came: %d, its end: %d", came, end_of(child));
    child = soon(4);
    FD_ZERO(&set);
    FD_SET(ends[0], &set);
    trace("pselect: %ld", outcome(pselect(ends[0] + 1, &set, NULL, NULL, NULL, &before)));
    trace("came: %d, its end: %d", came, end_of(child));
    sigprocmask(SIG_SETMASK, &before, NULL);
    close(instance), close(ends[0]), close(ends[1]);
}

static void in_other_waits(void) {
    char byte;
    int ends[2], tries = 0;
    pid_t child;
    pipe(ends);
    hear(SIGCHLD, 0);
    child = soon(1);
    trace("read: %ld", outcome(read(ends[0], &byte, 1)));
    trace("came: %d, its end: %d", came, end_of(child));
    child = soon(2);
    trace("sleep is ended: %d", sleep(3600) > 3000);
    trace("came: %d, its end: %d", came, end_of(child));
    child = soon(3);
    while (came < 3) tries += pause() == -1;
    trace("pause: %d, its end: %d", tries, end_of(child));
    hear(SIGCHLD, SA_RESTART);
    child = fork();
    if (child == 0) {
        await_sleep();
        if (fork() == 0) {
            usleep(100000);
            write(ends[1], "x", 1);
            _exit(0);
        }
        _exit(4);
    }
    trace("read goes on: %ld", outcome(read(ends[0], &byte, 1)));
    trace("came: %d, its end: %d", came, end_of(child));
    signal(SIGCHLD, SIG_DFL);
    close(ends[0]), close(ends[1]);
}

/* SIGCHLD is blocked, and asked for. */
static void asked_for(void) {
    const struct timespec minute = {60, 0}, some = {0, 200000000};
    sigset_t child_ends = only(SIGCHLD), before;
    struct signalfd_siginfo info = {0};
    siginfo_t told = {0};
    pid_t child;
    int fd, signal = 0;
    sigprocmask(SIG_BLOCK, &child_ends, &before);
    child = soon(1);
    trace("sigtimedwait: %ld", outcome(sigtimedwait(&child_ends, &told, &minute)));
    trace("%d, its end: %d", told.si_pid == child, end_of(child));
    child = soon(2);
    trace("sigwait: %d", sigwait(&child_ends, &signal));
    trace("%d, its end: %d", signal == SIGCHLD, end_of(child));
    child = soon(3);
    trace("sigwaitinfo: %ld", outcome(sigwaitinfo(&child_ends, &told)));
    trace("%d, its end: %d", told.si_pid == child, end_of(child));
    fd = signalfd(-1, &child_ends, SFD_CLOEXEC);
    child = soon(4);
    trace("signalfd: %d", read(fd, &info, sizeof info) == (ssize_t)sizeof info);
    trace("%d, its end: %d", (pid_t)info.ssi_pid == child, end_of(child));
    close(fd);
    child = never();
    trace("nothing comes: %ld", outcome(sigtimedwait(&child_ends, NULL, &some)));
    end_never(child);
    sigtimedwait(&child_ends, NULL, &some);
    sigprocmask(SIG_SETMASK, &before, NULL);
}

/* ---- a time comes before the end ---- */

static void tell_passed(const char *name, long began, long least) {
    long passed = clock_now() - began;
    trace("%s: %d", name, passed >= least && passed < least + 30000);
}

/* Again and again, since one may come before the wait, on a busy machine. */
static void on_alarm(int signal) {
    on_signal(signal);
    alarm(1);
}

static void alarms_over_waits(void) {
    const struct itimerval soon_and_again = {{0, 300000}, {0, 300000}}, none = {{0, 0}, {0, 0}};
    struct sigaction action = {.sa_handler = on_alarm};
    pid_t child = never();
    long began = clock_now();
    sigaction(SIGALRM, &action, NULL);
    alarm(1);
    trace("waitpid: %ld", outcome(waitpid(child, NULL, 0)));
    tell_passed("after a second", began, 1000);
    hear(SIGALRM, 0);
    began = clock_now();
    setitimer(ITIMER_REAL, &soon_and_again, NULL);
    trace("waitid: %ld", outcome(waitid(P_ALL, 0, &(siginfo_t){0}, WEXITED)));
    tell_passed("after 0.3 s", began, 300);
    setitimer(ITIMER_REAL, &none, NULL);
    end_never(child);
}

static void *sleep_and_kill(void *child) {
    usleep(200000);
    send_to(*(pid_t *)child, SIGTERM);
    return NULL;
}

/* One thread waits for the child, and another one for its time. */
static void killed_by_thread(void) {
    long began = clock_now();
    pid_t child = never();
    pthread_t thread;
    pthread_create(&thread, NULL, sleep_and_kill, &child);
    trace("its end: %d", end_of(child));
    tell_passed("after 0.2 s", began, 200);
    pthread_join(thread, NULL);
}

/* ---- one thread waits for another's child ---- */

struct waiting {
    pid_t child;
    int status;
    sem_t done;
};

static void *reap(void *given) {
    struct waiting *waiting = given;
    waiting->status = end_of(waiting->child);
    sem_post(&waiting->done);
    return NULL;
}

static void in_a_thread(void) {
    struct waiting waiting;
    struct timespec end;
    pthread_t thread;
    sem_init(&waiting.done, 0, 0);
    waiting.child = soon(5);
    pthread_create(&thread, NULL, reap, &waiting);
    clock_gettime(CLOCK_REALTIME, &end);
    end.tv_sec += 60;
    trace("a guard of a minute: %ld", outcome(sem_timedwait(&waiting.done, &end)));
    pthread_join(thread, NULL);
    trace("its end: %d", waiting.status);
    waiting.child = never();
    pthread_create(&thread, NULL, reap, &waiting);
    clock_gettime(CLOCK_REALTIME, &end);
    end.tv_nsec += 200000000;
    if (end.tv_nsec >= 1000000000) end.tv_sec++, end.tv_nsec -= 1000000000;
    trace("a guard of 0.2 s: %ld", outcome(sem_timedwait(&waiting.done, &end)));
    send_to(waiting.child, SIGTERM);
    pthread_join(thread, NULL);
    trace("its end: %d", waiting.status);
}

int main(void) {
    trace("begin");
    in_waits_with_masks();
    in_other_waits();
    asked_for();
    alarms_over_waits();
    killed_by_thread();
    in_a_thread();
    trace("end");
    return 0;
}
