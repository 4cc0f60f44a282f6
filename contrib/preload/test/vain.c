/* Loops that ask in vain, without a wait: for a timer that isn't due, for bytes that aren't there, for nothing at all.
   Each ends, and none takes the time of a thread that computes. Simulated only; vain.out is what it says. */
#include "trace.h"

#include <poll.h>
#include <sched.h>
#include <stdatomic.h>
#include <stdint.h>
#include <stdlib.h>
#include <sys/epoll.h>
#include <sys/eventfd.h>
#include <sys/select.h>
#include <sys/timerfd.h>
#include <unistd.h>

enum { MOST_TURNS = 100000 };

static int timer;

static void set_timer(int milliseconds) {
    struct itimerspec value = {.it_value = {milliseconds / 1000, milliseconds % 1000 * 1000000L}};
    timerfd_settime(timer, 0, &value, NULL);
}

/* ---- one thread ---- */

static bool is_due(void) {
    uint64_t count;
    return read(timer, &count, sizeof count) == sizeof count;
}

static bool is_due_later(void) {
    sched_yield();
    return is_due();
}

static bool is_disarmed(void) {
    struct itimerspec left;
    timerfd_gettime(timer, &left);
    return left.it_value.tv_sec == 0 && left.it_value.tv_nsec == 0;
}

/* With a call in between that does something. */
static bool is_due_beside(void) {
    static int counter;
    uint64_t count;
    if (counter == 0) counter = eventfd(0, EFD_NONBLOCK);
    return eventfd_write(counter, 1) != 0 || read(counter, &count, sizeof count) < 0 || is_due();
}

static void ask(const char *name, bool (*is_there)(void), int milliseconds) {
    long began = clock_now();
    int turns = 0;
    set_timer(milliseconds);
    while (!is_there() && turns < MOST_TURNS) turns++;
    printf("%s: %s after %ld ms\n", name, turns < MOST_TURNS ? "there" : "never", clock_now() - began);
}

/* ---- beside a thread that computes ---- */

static atomic_int asked;

/* Ends when the others have asked so often; it makes no call. */
static void *compute(void *most) {
    while (atomic_load(&asked) < *(int *)most) continue;
    return NULL;
}

static void poll_once(void) {
    struct epoll_event found;
    static int instance;
    if (instance == 0) instance = epoll_create1(0);
    epoll_wait(instance, &found, 1, 0);
}

static void poll_nothing(void) { poll(NULL, 0, 0); }

static void select_nothing(void) { select(0, NULL, NULL, NULL, &(struct timeval){0, 0}); }

static void read_once(void) { is_due(); }

static void ask_beside(const char *name, void (*ask_once)(void), int times) {
    pthread_t thread;
    long began = clock_now(), took;
    asked = 0;
    set_timer(3600000);
    pthread_create(&thread, NULL, compute, &times);
    for (int i = 0; i < times; i++) {
        ask_once();
        atomic_fetch_add(&asked, 1);
    }
    took = clock_now() - began;
    pthread_join(thread, NULL);
    printf("%s: %s\n", name, took < 50 ? "no time" : "takes the time of a thread that computes");
}

/* ---- beside a thread that sleeps, or asks, too ---- */

static void *sleep_a_while(void *nothing) {
    usleep(20000);
    atomic_store(&asked, 1);
    return nothing;
}

static void *poll_a_while(void *nothing) {
    long end = clock_now() + 20;
    while (clock_now() < end) poll_once();
    atomic_store(&asked, 1);
    return nothing;
}

static void ask_until(const char *name, void *(*other)(void *)) {
    pthread_t thread;
    long began = clock_now();
    asked = 0;
    pthread_create(&thread, NULL, other, NULL);
    while (!atomic_load(&asked)) poll_once();
    pthread_join(thread, NULL);
    printf("%s: at least 20 ms: %d\n", name, clock_now() - began >= 20);
}

/* A thread that computes until another one has seen its clock go on. */
static void wait_for_asking(void) {
    int most = 1;
    long end = clock_now() + 5;
    pthread_t thread;
    asked = 0;
    pthread_create(&thread, NULL, compute, &most);
    while (clock_now() < end) poll_once();
    atomic_store(&asked, 1);
    pthread_join(thread, NULL);
    printf("it sees its clock go on\n");
}

int main(void) {
    timer = timerfd_create(CLOCK_MONOTONIC, TFD_NONBLOCK);
    ask("read", is_due, 50);
    ask("read and yield", is_due_later, 50);
    ask("timerfd_gettime", is_disarmed, 50);
    ask("read, and something else", is_due_beside, 3);
    ask("read for a long time", is_due, 10000);
    ask_beside("epoll_wait", poll_once, 300);
    ask_beside("poll of nothing", poll_nothing, 300);
    ask_beside("select of nothing", select_nothing, 300);
    ask_beside("read", read_once, 2000);
    ask_until("beside a sleep", sleep_a_while);
    ask_until("beside a poll", poll_a_while);
    wait_for_asking();
    return 0;
}
