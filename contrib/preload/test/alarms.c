/* alarm, setitimer and timer_create by the clock that the program sees, and signals that are waited for. */
#include "trace.h"

#include <fcntl.h>
#include <signal.h>
#include <stdlib.h>
#include <string.h>
#include <sys/epoll.h>
#include <sys/time.h>
#include <unistd.h>

static volatile sig_atomic_t came;
static volatile int value_told, code_told;

static void note(int signal) {
    (void)signal;
    came++;
}

static void note_value(int signal, siginfo_t *info, void *context) {
    (void)signal, (void)context;
    came++;
    value_told = info->si_value.sival_int;
    code_told = info->si_code;
}

static void once(void) {
    struct itimerval value = {.it_value = {1, 500000}}, before;
    trace("alarm: %u", alarm(10));
    sleep(3);
    trace("left: %u", alarm(2));
    pause();
    trace("paused: %d came", (int)came);
    trace("none left: %u", alarm(0));
    setitimer(ITIMER_REAL, &value, NULL);
    usleep(500000);
    getitimer(ITIMER_REAL, &before);
    trace("left: %d", before.it_value.tv_sec * 1000000 + before.it_value.tv_usec > 900000);
    value.it_value.tv_usec = 1000000;
    trace("no time: %ld", outcome(setitimer(ITIMER_REAL, &value, NULL)));
    pause();
    trace("paused: %d came", (int)came);
}

static void again_and_again(void) {
    struct itimerval value = {{0, 100000}, {0, 50000}}, none = {{0, 0}, {0, 0}};
    long began = clock_now(), took;
    came = 0;
    setitimer(ITIMER_REAL, &value, NULL);
    while (came < 5) pause();
    took = clock_now() - began;
    setitimer(ITIMER_REAL, &none, NULL);
    trace("450 ms for five: %d", took >= 450 && took < 600);
    usleep(200000);
    trace("no more: %d", (int)came);
}

/* A loop that computes, and looks at no clock, hears of it in the end. */
static void compute(void) {
    struct itimerval value = {.it_value = {0, 200000}};
    came = 0;
    setitimer(ITIMER_REAL, &value, NULL);
    while (came == 0) continue;
    trace("computed");
}

static void timers(void) {
    struct sigaction action = {.sa_sigaction = note_value, .sa_flags = SA_SIGINFO};
    struct sigevent event = {.sigev_notify = SIGEV_SIGNAL, .sigev_signo = SIGUSR1, .sigev_value.sival_int = 42};
    struct itimerspec setting = {.it_value = {0, 100000000}}, now;
    struct timespec end;
    timer_t timer, other;
    came = 0;
    sigaction(SIGUSR1, &action, NULL);
    trace("timer_create: %ld", outcome(timer_create(CLOCK_MONOTONIC, &event, &timer)));
    trace("unset: %ld", outcome(timer_gettime(timer, &now)));
    trace("%ld", (long)now.it_value.tv_sec + now.it_value.tv_nsec);
    timer_settime(timer, 0, &setting, NULL);
    pause();
    trace("%d came, value %d, of a timer: %d", (int)came, value_told, code_told == SI_TIMER);
    clock_gettime(CLOCK_REALTIME, &end);
    end.tv_sec++;
    trace("by the day: %ld", outcome(timer_create(CLOCK_REALTIME, &event, &other)));
    setting.it_value = end;
    timer_settime(other, TIMER_ABSTIME, &setting, NULL);
    timer_gettime(other, &now);
    trace("left: %d", now.it_value.tv_sec == 1 || now.it_value.tv_nsec > 800000000);
    pause();
    trace("%d came", (int)came);
    clock_gettime(CLOCK_MONOTONIC, &end);
    setting.it_value = end;
    setting.it_interval = (struct timespec){0, 100000000};
    timer_settime(timer, TIMER_ABSTIME, &setting, NULL);
    while (came < 5) pause();
    trace("overrun: %d", timer_getoverrun(timer));
    trace("timer_delete: %ld", outcome(timer_delete(timer)));
    timer_delete(other);
    event.sigev_notify = SIGEV_NONE;
    trace("silent: %ld", outcome(timer_create(CLOCK_BOOTTIME, &event, &timer)));
    setting = (struct itimerspec){.it_value = {5, 0}};
    timer_settime(timer, 0, &setting, NULL);
    sleep(2);
    timer_gettime(timer, &now);
    trace("left: %d", now.it_value.tv_sec == 2 || now.it_value.tv_sec == 3);
    timer_delete(timer);
    event = (struct sigevent){.sigev_notify = SIGEV_SIGNAL, .sigev_signo = 1000};
    trace("no signal: %ld", outcome(timer_create(CLOCK_MONOTONIC, &event, &timer)));
}

/* A blocked signal is waited for. */
static void waits(void) {
    struct timespec time = {1, 0};
    sigset_t alarms;
    siginfo_t info;
    int got = 0;
    came = 0;
    sigemptyset(&alarms);
    sigaddset(&alarms, SIGALRM);
    pthread_sigmask(SIG_BLOCK, &alarms, NULL);
    alarm(1);
    trace("sigwait: %d", sigwait(&alarms, &got));
    trace("got it: %d", got == SIGALRM);
    alarm(1);
    trace("sigwaitinfo: %d", sigwaitinfo(&alarms, &info) == SIGALRM);
    alarm(2);
    trace("too late: %ld", outcome(sigtimedwait(&alarms, &info, &time)));
    time.tv_sec = 5;
    trace("in time: %d", sigtimedwait(&alarms, &info, &time) == SIGALRM);
    pthread_sigmask(SIG_UNBLOCK, &alarms, NULL);
    trace("%d came", (int)came);
}

/* The alarm of one thread breaks the wait of another one, which doesn't block it. */
static void *wait_in_thread(void *nothing) {
    struct epoll_event event;
    int instance = epoll_create1(0);
    trace("in a thread: %ld", outcome(epoll_wait(instance, &event, 1, -1)));
    close(instance);
    return nothing;
}

static void across_threads(void) {
    sigset_t alarms;
    pthread_t thread;
    sigemptyset(&alarms);
    sigaddset(&alarms, SIGALRM);
    pthread_create(&thread, NULL, wait_in_thread, NULL);
    pthread_sigmask(SIG_BLOCK, &alarms, NULL);
    alarm(1);
    pthread_join(thread, NULL);
    pthread_sigmask(SIG_UNBLOCK, &alarms, NULL);
}

int main(void) {
    struct sigaction action = {.sa_handler = note};
    sigaction(SIGALRM, &action, NULL);
    once();
    again_and_again();
    compute();
    timers();
    waits();
    across_threads();
    return 0;
}
