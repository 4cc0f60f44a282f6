/* The simulated clock, sleeping, and timers. CLOCK_MONOTONIC and its like are the kernel's clock, which is at START
   when the program begins. CLOCK_REALTIME is EPOCH_SECONDS more. */
#include "preload.h"

#include <pthread.h>
#include <stdlib.h>
#include <sys/time.h>

FORWARD(clock_gettime)
FORWARD(clock_nanosleep)

/* Where there is no kernel: in a child the moment of the fork. */
static struct timespec left_at = {.tv_sec = START / SECOND, .tv_nsec = START % SECOND * UNIT};

void keep_moment(void) { left_at = timespec_of(moment_now()); }

uint64_t moment_now(void) {
    struct timespec now = left_at;
    QUIET;
    nippersage_now(the_kernel(), &now);
    return (uint64_t)units_of(&now);
}

int64_t units_of(const struct timespec *time) {
    if (time->tv_sec < 0 || time->tv_nsec < 0 || time->tv_nsec >= 1000000000) return -1;
    if (time->tv_sec > INT64_MAX / SECOND - 1) return INT64_MAX;
    return (int64_t)time->tv_sec * SECOND + (time->tv_nsec + UNIT - 1) / UNIT;
}

struct timespec timespec_of(uint64_t units) {
    return (struct timespec){.tv_sec = (time_t)(units / SECOND), .tv_nsec = (long)(units % SECOND) * UNIT};
}

/* A sleep of no time takes a millisecond: a program that yields until its clock has gone on comes to an end. */
int sleep_for(int64_t units, const char *call) {
    struct epoll_event none;
    struct wait wait = {.instance = sleeping_instance(), .events = &none, .most = 1, .call = call};
    wait.timeout = units == 0 ? MILLISECOND : units;
    return wait_at(&wait);
}

/* One thread moves the clock at a time, or two would go too far. */
void bring_clock_to(uint64_t moment) {
    static pthread_mutex_t lock = PTHREAD_MUTEX_INITIALIZER;
    struct timespec more;
    uint64_t now;
    QUIET;
    pthread_mutex_lock(&lock);
    now = moment_now();
    more = timespec_of(now < moment ? moment - now : 0);
    if (now < moment) nippersage_tick(self(), &more);
    pthread_mutex_unlock(&lock);
    send_alarms();
    end_timed_waits(now < moment ? moment : now);
}

/* A program that polls, or asks for the time, again and again goes on once its clock has gone on. It goes on by a
   millisecond: with a UNIT the program would poll a thousand times as often. What happens within the millisecond is
   seen when it happens. Another thread that does something keeps the clock where it is. */
void let_clock_go_on(void) {
    uint64_t step, end, next;
    QUIET;
    step = step_for_asking();
    if (step == 0 || !may_take_a_while()) return;
    end = moment_now() + step;
    bring_clock_to(next_moment(&next) && next < end ? next : end);
}

/* ---- clocks ---- */

/* Those of processors are real. */
bool is_clock(clockid_t clock) {
    return clock == CLOCK_REALTIME || clock == CLOCK_MONOTONIC || clock == CLOCK_MONOTONIC_RAW ||
           clock == CLOCK_BOOTTIME || clock == CLOCK_REALTIME_COARSE || clock == CLOCK_MONOTONIC_COARSE ||
           clock == CLOCK_TAI || clock == CLOCK_REALTIME_ALARM || clock == CLOCK_BOOTTIME_ALARM;
}

bool is_of_day(clockid_t clock) {
    return clock == CLOCK_REALTIME || clock == CLOCK_REALTIME_COARSE || clock == CLOCK_TAI ||
           clock == CLOCK_REALTIME_ALARM;
}

static unsigned long calls_of_this_thread(void) {
    return atomic_load_explicit(&this_thread.calls, memory_order_relaxed);
}

/* The clock for a program that asks. One that asks again and again waits for it to go on: it goes on at the thousandth
   time without another call in between, and at the ten thousandth time at one moment. */
static uint64_t moment_asked(void) {
    static _Thread_local unsigned long last_calls;
    static _Thread_local uint64_t last_moment;
    static _Thread_local int in_a_row, at_a_moment;
    uint64_t moment = moment_now();
    in_a_row = calls_of_this_thread() == last_calls ? in_a_row + 1 : 0;
    at_a_moment = moment == last_moment ? at_a_moment + 1 : 0;
    if (in_a_row == 1000 || at_a_moment == 10000) {
        in_a_row = at_a_moment = 0;
        let_clock_go_on();
        moment = moment_now();
    }
    last_calls = calls_of_this_thread();
    last_moment = moment;
    return moment;
}

/* The same for calls that are in the history. So each takes a millisecond from then on: a program that asks for an hour
   would fill the machine. */
void count_vain(void) {
    static _Thread_local unsigned long last_calls;
    static _Thread_local uint64_t last_moment;
    static _Thread_local int in_a_row, at_a_moment;
    uint64_t moment = moment_now();
    in_a_row = calls_of_this_thread() - last_calls > 1 ? 1 : in_a_row < 1000 ? in_a_row + 1 : 1000;
    at_a_moment = moment == last_moment ? at_a_moment + 1 : 0;
    if (in_a_row == 1000 || at_a_moment == 10000) {
        at_a_moment = 0;
        let_clock_go_on();
    }
    last_calls = calls_of_this_thread();
    last_moment = moment;
}

int clock_gettime(clockid_t clock, struct timespec *time) {
    if (is_outside || !is_clock(clock)) return next_clock_gettime()(clock, time);
    if (!WRITABLE(time)) return (int)plain_answer(-EFAULT);
    *time = timespec_of(moment_asked());
    if (is_of_day(clock)) time->tv_sec += EPOCH_SECONDS;
    return 0;
}

FORWARD(gettimeofday)
FORWARD(time)

int gettimeofday(struct timeval *restrict time, void *restrict zone) {
    struct timespec now;
    HAND_ON(next_gettimeofday()(time, zone));
    now = timespec_of(moment_asked());
    if (!WRITABLE(time) || (zone && !can_write(zone, sizeof(struct timezone)))) return (int)plain_answer(-EFAULT);
    *time = (struct timeval){EPOCH_SECONDS + now.tv_sec, now.tv_nsec / 1000};
    if (zone) memset(zone, 0, sizeof(struct timezone));
    return 0;
}

int timespec_get(struct timespec *time, int base) {
    return base == TIME_UTC && clock_gettime(CLOCK_REALTIME, time) == 0 ? base : 0;
}

time_t time(time_t *told) {
    time_t now;
    HAND_ON(next_time()(told));
    now = EPOCH_SECONDS + timespec_of(moment_asked()).tv_sec;
    if (!WRITABLE_OR_NULL(told)) return plain_answer(-EFAULT);
    if (told) *told = now;
    return now;
}

/* ---- sleeping ---- */

/* Sleeps so long: 0, or EINTR, and then how much is left. */
static int sleep_or_break(int64_t units, struct timespec *left) {
    uint64_t end = moment_now() + (uint64_t)units, now;
    if (sleep_for(units, "clock_nanosleep") == 0) return 0;
    now = moment_now();
    if (!WRITABLE_OR_NULL(left)) return EFAULT;
    if (left) *left = timespec_of(end > now ? end - now : 0);
    return EINTR;
}

int clock_nanosleep(clockid_t clock, int flags, const struct timespec *time, struct timespec *left) {
    int64_t units, now = (int64_t)moment_now();
    int error, saved = errno;
    if (is_outside || !is_clock(clock)) return next_clock_nanosleep()(clock, flags, time, left);
    if (!READABLE(time)) return EFAULT;
    units = units_of(time);
    if (units < 0) return EINVAL;
    QUIET;
    if (flags & TIMER_ABSTIME) {
        if (is_of_day(clock)) now += EPOCH;
        units = units > now ? units - now : 0;
        left = NULL;
    }
    error = sleep_or_break(units, left);
    ANSWER(-error, "clock_nanosleep(%s, %s, %s)", clock_text(TEXT, clock),
           flags & TIMER_ABSTIME ? "TIMER_ABSTIME" : "0", time_text(TEXT, time));
    errno = saved;
    return error;
}

int nanosleep(const struct timespec *time, struct timespec *left) {
    int error = clock_nanosleep(CLOCK_MONOTONIC, 0, time, left);
    if (error == 0) return 0;
    errno = error;
    return -1;
}

int usleep(useconds_t count) {
    struct timespec time = {count / 1000000, (long)(count % 1000000) * 1000};
    return nanosleep(&time, NULL);
}

unsigned int sleep(unsigned int count) {
    struct timespec time = {count, 0}, left = {0, 0};
    return nanosleep(&time, &left) == 0 ? 0 : (unsigned int)left.tv_sec;
}

/* ---- timers ---- */

/* A moment of CLOCK_REALTIME by the kernel's clock, which is at 0 when that is EPOCH_SECONDS. What was before it is
   its first UNIT, for 0 would disarm. */
static void from_day(struct timespec *time) {
    if (time->tv_sec == 0 && time->tv_nsec == 0) return;
    if (time->tv_sec < EPOCH_SECONDS) {
        *time = (struct timespec){0, UNIT};
    } else {
        time->tv_sec -= EPOCH_SECONDS;
    }
    if (time->tv_sec == 0 && time->tv_nsec == 0) time->tv_nsec = UNIT;
}

FORWARD(timerfd_settime)
FORWARD(timerfd_gettime)

int timerfd_settime(int fd, int flags, const struct itimerspec *value, struct itimerspec *before) {
    HAND_ON_OF(fd, "timerfd_settime", next_timerfd_settime()(fd, flags, value, before));
    QUIET;
    struct description *description = hold(fd);
    struct itimerspec kept;
    int status = !READABLE(value) || !WRITABLE_OR_NULL(before) ? -EFAULT : !description ? -EBADF : 0;
    if (status == 0) {
        kept = *value;
        if ((flags & TFD_TIMER_ABSTIME) && is_of_day(description->clock)) from_day(&kept.it_value);
        status = nippersage_timerfd_settime(self(), fd - FIRST, flags & ~TFD_TIMER_CANCEL_ON_SET, &kept, before);
    }
    if (description) let_go(description);
    return (int)ANSWER(status, "timerfd_settime(%d, %s, %s, %s)", fd,
                       flags & TFD_TIMER_ABSTIME ? "TFD_TIMER_ABSTIME" : "0",
                       setting_text(TEXT, status == -EFAULT ? NULL : value),
                       setting_text(TEXT, status < 0 ? NULL : before));
}

int timerfd_gettime(int fd, struct itimerspec *now) {
    HAND_ON_OF(fd, "timerfd_gettime", next_timerfd_gettime()(fd, now));
    QUIET;
    struct description *description = hold(fd);
    if (description) count_vain();
    int status = !description ? -EBADF : WRITABLE(now) ? nippersage_timerfd_gettime(self(), fd - FIRST, now) : -EFAULT;
    if (description) let_go(description);
    return (int)ANSWER(status, "timerfd_gettime(%d, %s)", fd, setting_text(TEXT, status < 0 ? NULL : now));
}
