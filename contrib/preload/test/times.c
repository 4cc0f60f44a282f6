/* Short and long times, to a nanosecond: the kernel counts microseconds, and a finer time is rounded up to one.
   Simulated only; times.out is what it says. */
#include "trace.h"

#include <limits.h>
#include <linux/futex.h>
#include <poll.h>
#include <semaphore.h>
#include <signal.h>
#include <stdint.h>
#include <stdlib.h>
#include <sys/epoll.h>
#include <sys/select.h>
#include <sys/socket.h>
#include <sys/syscall.h>
#include <sys/time.h>
#include <sys/timerfd.h>
#include <unistd.h>

static struct epoll_event event;

static long long nanoseconds(void) {
    struct timespec now;
    clock_gettime(CLOCK_MONOTONIC, &now);
    return now.tv_sec * 1000000000LL + now.tv_nsec;
}

/* What a call answers, and how many nanoseconds pass in it. */
#define TELL(name, call)                                                     \
    do {                                                                     \
        long long began = nanoseconds();                                     \
        long answer = outcome(call);                                         \
        printf("%s: %ld, %lld ns\n", name, answer, nanoseconds() - began);   \
    } while (0)

/* So many nanoseconds from now, by a clock. */
static struct timespec in(clockid_t clock, long count) {
    struct timespec end;
    clock_gettime(clock, &end);
    end.tv_nsec += count;
    end.tv_sec += end.tv_nsec / 1000000000;
    end.tv_nsec %= 1000000000;
    return end;
}

#define OF(seconds, count) (&(struct timespec){seconds, count})
#define OF_SHORT(seconds, count) (&(struct timeval){seconds, count})

/* ---- timers ---- */

static int instance, timer;

static long set(int flags, struct timespec value, long interval) {
    struct itimerspec setting = {.it_value = value, .it_interval = {0, interval}};
    return outcome(timerfd_settime(timer, flags, &setting, NULL));
}

static void tell_timer(void) {
    struct itimerspec left;
    timerfd_gettime(timer, &left);
    printf("left: %lld s %ld ns, each %ld ns\n", (long long)left.it_value.tv_sec, left.it_value.tv_nsec,
           left.it_interval.tv_nsec);
}

static long expirations(void) {
    uint64_t count = 0;
    long status = outcome(read(timer, &count, sizeof count));
    return status < 0 ? status : (long)count;
}

static void timers(void) {
    static const long values[] = {1000, 1, 999, 1001, 1000000};
    for (size_t i = 0; i < sizeof values / sizeof *values; i++) {
        set(0, *OF(0, values[i]), 0);
        tell_timer();
        TELL("timer", epoll_wait(instance, &event, 1, -1));
        TELL("expirations", expirations());
    }
    set(0, *OF(0, 1500), 2001);
    tell_timer();
    TELL("nanosleep", nanosleep(OF(0, 9000), NULL));
    TELL("expirations", expirations());
    tell_timer();
    set(TFD_TIMER_ABSTIME, in(CLOCK_MONOTONIC, 2500), 0);
    TELL("until", epoll_wait(instance, &event, 1, -1));
    printf("too long: %ld\n", set(0, *OF(1000000000, 1), 0));
    printf("just not: %ld\n", set(0, *OF(1000000000, 0), 0));
    tell_timer();
    set(0, *OF(0, 0), 0);
}

/* By the time of day. */
static void timers_of_day(void) {
    int own = timer;
    timer = timerfd_create(CLOCK_REALTIME, TFD_NONBLOCK);
    epoll_ctl(instance, EPOLL_CTL_ADD, timer, &event);
    set(TFD_TIMER_ABSTIME, in(CLOCK_REALTIME, 7000), 0);
    TELL("by the day", epoll_wait(instance, &event, 1, -1));
    set(TFD_TIMER_ABSTIME, *OF(1, 0), 0);
    TELL("long ago", epoll_wait(instance, &event, 1, -1));
    close(timer);
    timer = own;
}

/* ---- waits ---- */

static void pwaits(void) {
    TELL("pwait2 of 1,500", epoll_pwait2(instance, &event, 1, OF(0, 1500), NULL));
    TELL("pwait2 of 1", epoll_pwait2(instance, &event, 1, OF(0, 1), NULL));
    TELL("pwait2 of 1,000", epoll_pwait2(instance, &event, 1, OF(0, 1000), NULL));
    TELL("pwait2 of 0", epoll_pwait2(instance, &event, 1, OF(0, 0), NULL));
    TELL("pwait2 of too much", epoll_pwait2(instance, &event, 1, OF(0, 1000000000), NULL));
    TELL("pwait2 of less than nothing", epoll_pwait2(instance, &event, 1, OF(0, -1), NULL));
    TELL("pwait2 of less than nothing", epoll_pwait2(instance, &event, 1, OF(-1, 0), NULL));
    TELL("pwait2 of no time at no instance", epoll_pwait2(-1, &event, 1, OF(-1, 0), NULL));
    TELL("pwait2 at no instance", epoll_pwait2(-1, &event, 1, OF(0, 1), NULL));
    TELL("wait of 1", epoll_wait(instance, &event, 1, 1));
    TELL("pwait of 2", epoll_pwait(instance, &event, 1, 2, NULL));
}

static void polls(int fd) {
    struct pollfd file = {.fd = fd, .events = POLLIN};
    struct timeval left = {0, 10};
    fd_set set_of;
    TELL("ppoll of 2,500", ppoll(&file, 1, OF(0, 2500), NULL));
    TELL("ppoll of too much", ppoll(&file, 1, OF(0, 1000000000), NULL));
    TELL("poll of 1", poll(&file, 1, 1));
    FD_ZERO(&set_of);
    FD_SET(fd, &set_of);
    TELL("pselect of 1,001", pselect(fd + 1, &set_of, NULL, NULL, OF(0, 1001), NULL));
    FD_SET(fd, &set_of);
    TELL("select of 7", select(fd + 1, &set_of, NULL, NULL, OF_SHORT(0, 7)));
    set(0, *OF(0, 4000), 0);
    FD_ZERO(&set_of);
    FD_SET(timer, &set_of);
    TELL("select of 10, a timer of 4", select(timer + 1, &set_of, NULL, NULL, &left));
    printf("left: %lld s %ld us\n", (long long)left.tv_sec, (long)left.tv_usec);
    TELL("expirations", expirations());
    TELL("poll of nothing", poll(NULL, 0, 2));
    TELL("ppoll of nothing", ppoll(NULL, 0, OF(0, 1), NULL));
    TELL("select of nothing", select(0, NULL, NULL, NULL, OF_SHORT(0, 3)));
}

static void sleeps(void) {
    struct timespec end;
    TELL("nanosleep of 1", nanosleep(OF(0, 1), NULL));
    TELL("nanosleep of 1,001", nanosleep(OF(0, 1001), NULL));
    TELL("nanosleep of 0", nanosleep(OF(0, 0), NULL));
    TELL("nanosleep of too much", nanosleep(OF(0, 1000000000), NULL));
    TELL("usleep of 1", usleep(1));
    end = in(CLOCK_MONOTONIC, 2500);
    TELL("sleep until", clock_nanosleep(CLOCK_MONOTONIC, TIMER_ABSTIME, &end, NULL));
    end = in(CLOCK_REALTIME, 5000);
    TELL("sleep until, by the day", clock_nanosleep(CLOCK_REALTIME, TIMER_ABSTIME, &end, NULL));
}

static void sockets(void) {
    struct timeval time = {0, 3};
    socklen_t size = sizeof time;
    int sides[2];
    char byte;
    if (socketpair(AF_UNIX, SOCK_STREAM, 0, sides) != 0) printf("no pair\n");
    setsockopt(sides[0], SOL_SOCKET, SO_RCVTIMEO, &time, sizeof time);
    getsockopt(sides[0], SOL_SOCKET, SO_RCVTIMEO, &time, &size);
    printf("SO_RCVTIMEO: %lld s %ld us\n", (long long)time.tv_sec, (long)time.tv_usec);
    TELL("read", read(sides[0], &byte, 1));
    close(sides[0]);
    close(sides[1]);
}

/* ---- locks ---- */

static void locks(void) {
    pthread_mutex_t lock = PTHREAD_MUTEX_INITIALIZER;
    pthread_cond_t changed = PTHREAD_COND_INITIALIZER;
    struct timespec end = in(CLOCK_REALTIME, 1500);
    sigset_t none;
    uint32_t word = 0;
    sem_t semaphore;
    pthread_mutex_lock(&lock);
    TELL("pthread_cond_timedwait", pthread_cond_timedwait(&changed, &lock, &end));
    pthread_mutex_unlock(&lock);
    sem_init(&semaphore, 0, 0);
    end = in(CLOCK_MONOTONIC, 4001);
    TELL("sem_clockwait", sem_clockwait(&semaphore, CLOCK_MONOTONIC, &end));
    TELL("futex", syscall(SYS_futex, &word, FUTEX_WAIT_PRIVATE, 0, OF(0, 6001), NULL, 0));
    sigemptyset(&none);
    TELL("sigtimedwait", sigtimedwait(&none, NULL, OF(0, 8001)));
}

/* ---- alarms ---- */

static void ignore(int signal) { (void)signal; }

static void alarms(void) {
    struct sigaction action = {.sa_handler = ignore};
    struct itimerval value = {.it_value = {0, 250}};
    timer_t made;
    sigaction(SIGALRM, &action, NULL);
    setitimer(ITIMER_REAL, &value, NULL);
    TELL("nanosleep", nanosleep(OF(0, 100000), NULL));
    getitimer(ITIMER_REAL, &value);
    printf("left: %lld s %ld us\n", (long long)value.it_value.tv_sec, (long)value.it_value.tv_usec);
    TELL("pause", pause());
    ualarm(30, 0);
    TELL("pause", pause());
    if (timer_create(CLOCK_MONOTONIC, NULL, &made) != 0) printf("no timer\n");
    timer_settime(made, 0, &(struct itimerspec){.it_value = {0, 1500}}, NULL);
    TELL("pause", pause());
    timer_delete(made);
    if (timer_create(CLOCK_REALTIME, NULL, &made) != 0) printf("no timer\n");
    timer_settime(made, TIMER_ABSTIME, &(struct itimerspec){.it_value = in(CLOCK_REALTIME, 2500)}, NULL);
    TELL("pause", pause());
    timer_delete(made);
}

/* ---- a clock that is looked at again and again ---- */

static long look(void) {
    long long began = nanoseconds();
    while (nanoseconds() == began) continue;
    return 0;
}

/* Polls until the clock has gone on, or something is found. */
static long poll_on(void) {
    long long began = nanoseconds();
    long found;
    do found = epoll_wait(instance, &event, 1, 0);
    while (found == 0 && nanoseconds() == began);
    return found;
}

/* A poll takes no time. After many the clock goes on by a millisecond, or to the next timer. */
static void polling(void) {
    set(0, *OF(0, 10000), 0);
    TELL("poll before a timer", epoll_wait(instance, &event, 1, 0));
    TELL("polls before a timer", poll_on());
    TELL("poll then", epoll_wait(instance, &event, 1, 0));
    TELL("expirations", expirations());
    TELL("poll without one", epoll_wait(instance, &event, 1, 0));
    TELL("poll of no time", poll(NULL, 0, 0));
    TELL("select of no time", select(0, NULL, NULL, NULL, OF_SHORT(0, 0)));
    TELL("polls without one", poll_on());
    set(0, *OF(0, 300000), 0);
    TELL("looks before a timer", look());
    TELL("expirations", expirations());
    TELL("looks without one", look());
}

/* ---- long times ---- */

/* Some are longer than INT_MAX milliseconds, which are 24 days. */
static void years(void) {
    struct timespec day, since;
    TELL("pwait2 of 34 days", epoll_pwait2(instance, &event, 1, OF(3000000, 1), NULL));
    TELL("wait of 24 days", epoll_wait(instance, &event, 1, INT_MAX));
    TELL("nanosleep of 3 years", nanosleep(OF(100000000, 1), NULL));
    set(0, *OF(50000000, 1), 0);
    TELL("timer of 1 year", epoll_wait(instance, &event, 1, -1));
    TELL("expirations", expirations());
    printf("sleep until: %d\n", clock_nanosleep(CLOCK_REALTIME, TIMER_ABSTIME, OF(1200000000, 1), NULL));
    clock_gettime(CLOCK_MONOTONIC, &since);
    clock_gettime(CLOCK_REALTIME, &day);
    printf("monotonic: %lld.%09ld\n", (long long)since.tv_sec, since.tv_nsec);
    printf("real: %lld.%09ld\n", (long long)day.tv_sec, day.tv_nsec);
}

/* The same of waits that are no calls of epoll. */
static void more_years(int fd) {
    const long three_years = 100000000000000000;
    pthread_mutex_t lock = PTHREAD_MUTEX_INITIALIZER;
    pthread_cond_t changed = PTHREAD_COND_INITIALIZER;
    struct timespec end = in(CLOCK_REALTIME, three_years);
    struct pollfd file = {.fd = fd, .events = POLLIN};
    sigset_t none;
    sem_t semaphore;
    pthread_mutex_lock(&lock);
    TELL("condition of 3 years", pthread_cond_timedwait(&changed, &lock, &end));
    pthread_mutex_unlock(&lock);
    sem_init(&semaphore, 0, 0);
    end = in(CLOCK_MONOTONIC, three_years);
    TELL("semaphore of 3 years", sem_clockwait(&semaphore, CLOCK_MONOTONIC, &end));
    sigemptyset(&none);
    TELL("signal of 34 days", sigtimedwait(&none, NULL, OF(3000000, 1)));
    TELL("poll of 24 days", poll(&file, 1, INT_MAX));
    TELL("ppoll of 34 days", ppoll(&file, 1, OF(3000000, 1), NULL));
    TELL("select of 34 days", select(0, NULL, NULL, NULL, OF_SHORT(3000000, 1)));
    alarm(3000000);
    TELL("pause of 34 days", pause());
}

int main(void) {
    int ends[2];
    instance = epoll_create1(0);
    timer = timerfd_create(CLOCK_MONOTONIC, TFD_NONBLOCK);
    event = (struct epoll_event){.events = EPOLLIN};
    if (epoll_ctl(instance, EPOLL_CTL_ADD, timer, &event) != 0 || pipe(ends) != 0) return 1;
    timers();
    timers_of_day();
    pwaits();
    polls(ends[0]);
    sleeps();
    sockets();
    locks();
    polling();
    alarms();
    locks();
    years();
    more_years(ends[0]);
    return 0;
}
