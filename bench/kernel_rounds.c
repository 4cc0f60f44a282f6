/* Makes the rounds of bench/kernel_rounds on the kernel of this machine: kernel_rounds KIND N ROUNDS. It prints the nanoseconds of
 * processor that the rounds took, or `-` where the kernel does not allow what they need. */
#define _GNU_SOURCE
#include <errno.h>
#include <pthread.h>
#include <stdint.h>
#include <stdio.h>
#include <stdlib.h>
#include <string.h>
#include <sys/epoll.h>
#include <sys/eventfd.h>
#include <sys/resource.h>
#include <sys/timerfd.h>
#include <sys/wait.h>
#include <time.h>
#include <unistd.h>

enum { TIMERS = 1000, WAITERS = 100, DEPTH = 5, FAR_AHEAD = 1000000000, STACK = 65536 };

/* What a round is made on. */
struct bench {
    int count;
    int active;   /* the eventfd that is written and read */
    int instance; /* the instance at which is waited */
    int most;     /* how many reports a wait asks for */
};

/* Ends the program where a call failed: with `-` where a limit of the kernel or of this machine is the reason. */
static int checked(int result)
{
    if (result >= 0)
        return result;
    if (errno != EMFILE && errno != ENFILE && errno != EINVAL && errno != ELOOP && errno != EAGAIN && errno != ENOSPC) {
        perror("kernel_rounds");
        exit(1);
    }
    fprintf(stderr, "kernel_rounds: %s\n", strerror(errno));
    puts("-");
    fflush(stdout);
    _exit(0);
}

static void add(int instance, int target)
{
    struct epoll_event event = {.events = EPOLLIN, .data = {.fd = target}};

    checked(epoll_ctl(instance, EPOLL_CTL_ADD, target, &event));
}

static int new_instance(void)
{
    return checked(epoll_create1(0));
}

static int new_counter(unsigned start)
{
    return checked(eventfd(start, EFD_NONBLOCK));
}

/* An instance with so many eventfds, of which the last one is active. */
static void watch_counters(struct bench *bench, unsigned start)
{
    bench->instance = new_instance();
    for (int i = 0; i < bench->count; i++) {
        bench->active = new_counter(start);
        add(bench->instance, bench->active);
    }
}

/* ---- what stands beside a round */

static void arm_timers(void)
{
    struct itimerspec far_ahead = {.it_value = {.tv_sec = FAR_AHEAD}};

    for (int i = 0; i < TIMERS; i++) {
        int timer = checked(timerfd_create(CLOCK_MONOTONIC, TFD_NONBLOCK));

        checked(timerfd_settime(timer, 0, &far_ahead, NULL));
    }
}

static void *wait_without_end(void *instance)
{
    struct epoll_event event;

    epoll_wait(*(int *)instance, &event, 1, -1);
    return NULL;
}

/* Parks a thread at the instance. */
static void park(int instance)
{
    pthread_t thread;
    pthread_attr_t attributes;
    int *argument = malloc(sizeof *argument);

    *argument = instance;
    pthread_attr_init(&attributes);
    pthread_attr_setstacksize(&attributes, STACK);
    errno = pthread_create(&thread, &attributes, wait_without_end, argument);
    checked(errno == 0 ? 0 : -1);
}

/* Lets the threads come to their waits before anything is timed. */
static void let_park(void)
{
    struct timespec pause = {.tv_nsec = 300000000};

    nanosleep(&pause, NULL);
}

static void park_apart(void)
{
    for (int i = 0; i < WAITERS; i++) {
        int instance = new_instance();

        add(instance, new_counter(0));
        park(instance);
    }
    let_park();
}

/* ---- rounds: each answers whether a call failed */

static int write_one(int counter)
{
    uint64_t one = 1;

    return write(counter, &one, sizeof one) != sizeof one;
}

static int read_all(int counter)
{
    uint64_t value;

    return read(counter, &value, sizeof value) != sizeof value;
}

static int wait_for(const struct bench *bench, int reports)
{
    struct epoll_event events[8];

    return epoll_wait(bench->instance, events, bench->most, 0) != reports;
}

static int active_round(const struct bench *bench)
{
    return write_one(bench->active) | wait_for(bench, 1) | read_all(bench->active);
}

static int idle_round(const struct bench *bench)
{
    return wait_for(bench, 0);
}

static int stale_round(const struct bench *bench)
{
    return write_one(bench->active) | read_all(bench->active) | wait_for(bench, 0);
}

static int ready_round(const struct bench *bench)
{
    return wait_for(bench, 1);
}

static int counter_round(const struct bench *bench)
{
    return write_one(bench->active) | read_all(bench->active);
}

static int pipe_round(const struct bench *bench)
{
    int ends[2];

    (void)bench;
    return pipe(ends) | close(ends[0]) | close(ends[1]);
}

static void watch_pipes(int count)
{
    int instance = new_instance();

    for (int i = 0; i < count; i++) {
        int ends[2];

        checked(pipe(ends));
        add(instance, ends[0]);
    }
}

static int exit_round(const struct bench *bench)
{
    int status;
    pid_t child = checked(fork());

    if (child == 0) {
        watch_pipes(bench->count);
        _exit(0);
    }
    return waitpid(child, &status, 0) != child;
}

/* ---- kinds */

static void set_up_round(struct bench *bench)
{
    watch_counters(bench, 0);
}

static void set_up_timers(struct bench *bench)
{
    watch_counters(bench, 0);
    arm_timers();
}

static void set_up_waiters(struct bench *bench)
{
    watch_counters(bench, 0);
    park_apart();
}

static void set_up_nest(struct bench *bench)
{
    watch_counters(bench, 0);
    for (int level = 1; level < DEPTH; level++) {
        int outer = new_instance();

        add(outer, bench->instance);
        bench->instance = outer;
    }
}

/* The instance above, which watches the one below under so many numbers. */
static int watch_often(int inner, int count)
{
    int outer = new_instance();

    add(outer, inner);
    for (int i = 1; i < count; i++)
        add(outer, checked(dup(inner)));
    return outer;
}

static void set_up_paths(struct bench *bench)
{
    bench->active = new_counter(0);
    bench->instance = new_instance();
    add(bench->instance, bench->active);
    for (int level = 1; level < DEPTH; level++)
        bench->instance = watch_often(bench->instance, bench->count);
}

static void set_up_parked(struct bench *bench)
{
    watch_counters(bench, 0);
    bench->active = new_counter(0);
    for (int i = 0; i < bench->count; i++)
        park(bench->instance);
    let_park();
}

static void set_up_watched(struct bench *bench)
{
    bench->active = new_counter(0);
    bench->instance = new_instance();
    add(bench->instance, bench->active);
    for (int i = 0; i < bench->count; i++)
        add(new_instance(), bench->instance);
}

static void set_up_ready(struct bench *bench)
{
    watch_counters(bench, 1);
    bench->most = 1;
}

static void set_up_nothing(struct bench *bench)
{
    (void)bench;
}

struct kind {
    const char *name;
    void (*set_up)(struct bench *);
    int (*round)(const struct bench *);
};

static const struct kind KINDS[] = {
    {"round", set_up_round, active_round},     {"timers", set_up_timers, active_round},
    {"waiters", set_up_waiters, active_round}, {"nest", set_up_nest, active_round},
    {"paths", set_up_paths, idle_round},       {"stale", set_up_paths, stale_round},
    {"pipes", set_up_round, pipe_round},       {"parked", set_up_parked, counter_round},
    {"exits", set_up_nothing, exit_round},     {"watched", set_up_watched, counter_round},
    {"ready", set_up_ready, ready_round},
};

static const struct kind *kind_named(const char *name)
{
    for (size_t i = 0; i < sizeof KINDS / sizeof *KINDS; i++)
        if (strcmp(KINDS[i].name, name) == 0)
            return &KINDS[i];
    return NULL;
}

static long long nanoseconds(const struct timeval *time)
{
    return time->tv_sec * 1000000000LL + time->tv_usec * 1000LL;
}

/* The processor's nanoseconds of this process and of its children that have ended. */
static long long used(void)
{
    struct timespec own;
    struct rusage children;

    clock_gettime(CLOCK_PROCESS_CPUTIME_ID, &own);
    getrusage(RUSAGE_CHILDREN, &children);
    return own.tv_sec * 1000000000LL + own.tv_nsec + nanoseconds(&children.ru_utime) + nanoseconds(&children.ru_stime);
}

static void raise_limit(void)
{
    struct rlimit limit;

    getrlimit(RLIMIT_NOFILE, &limit);
    limit.rlim_cur = limit.rlim_max;
    setrlimit(RLIMIT_NOFILE, &limit);
}

int main(int count, char **words)
{
    const struct kind *kind = count == 4 ? kind_named(words[1]) : NULL;
    int failed = 0;

    if (!kind) {
        fputs("usage: kernel_rounds KIND N ROUNDS\n", stderr);
        return 2;
    }
    struct bench bench = {.count = atoi(words[2]), .most = 8};
    long rounds = atol(words[3]);

    raise_limit();
    kind->set_up(&bench);
    long long begin = used();

    for (long i = 0; i < rounds; i++)
        failed |= kind->round(&bench);
    printf("%lld\n", used() - begin);
    fflush(stdout);
    /* Threads that are parked end with the process. */
    _exit(failed);
}
