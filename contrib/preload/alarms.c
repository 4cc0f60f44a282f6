/* Alarms: alarm, setitimer of ITIMER_REAL, and the timers of timer_create, by the simulated clock. The real kernel
   only carries their signals. Those that measure the time of processors are real. */
#include "preload.h"

#include <pthread.h>
#include <sys/syscall.h>
#include <sys/time.h>

FORWARD(getitimer)
FORWARD(setitimer)
FORWARD(syscall)
FORWARD(timer_create)
FORWARD(timer_delete)
FORWARD(timer_getoverrun)
FORWARD(timer_gettime)
FORWARD(timer_settime)

struct alarm {
    bool is_made;
    clockid_t clock;
    uint64_t end; /* by the simulated clock; NEVER */
    uint64_t interval;
    int overrun;
    struct sigevent event;
};
enum { MOST_ALARMS = 256 };
#define NEVER UINT64_MAX

/* The first one is that of alarm and setitimer. */
static struct alarm alarms[MOST_ALARMS] = {
    [0] = {.is_made = true, .end = NEVER, .event = {.sigev_notify = SIGEV_SIGNAL, .sigev_signo = SIGALRM}}};
static pthread_mutex_t lock = PTHREAD_MUTEX_INITIALIZER;
static _Atomic uint64_t first_end = NEVER; /* of all of them */

static uint64_t first_of_all(void) {
    uint64_t first = NEVER;
    for (const struct alarm *alarm = alarms; alarm < alarms + MOST_ALARMS; alarm++)
        if (alarm->is_made && alarm->end < first) first = alarm->end;
    return first;
}

bool next_alarm(uint64_t *moment) {
    *moment = atomic_load(&first_end);
    return *moment <= LAST_MOMENT;
}

/* ---- sending ---- */

/* What the handler of a timer's signal is told. */
static siginfo_t info_of(const struct alarm *alarm) {
    siginfo_t info;
    memset(&info, 0, sizeof info);
    info.si_signo = alarm->event.sigev_signo;
    info.si_code = SI_TIMER;
    info.si_timerid = (int)(alarm - alarms);
    info.si_overrun = alarm->overrun;
    info.si_value = alarm->event.sigev_value;
    return info;
}

/* The real kernel lets no thread but the first one say SI_KERNEL, as an alarm's signal has it: it has SI_USER. */
static void send_signal(const struct alarm *alarm) {
    const struct sigevent *event = &alarm->event;
    siginfo_t info = info_of(alarm);
    if (event->sigev_notify == SIGEV_NONE) return;
    if (event->sigev_notify == SIGEV_SIGNAL) keep_history_before(event->sigev_signo);
    if (alarm == alarms) {
        next_syscall()(SYS_kill, getpid(), event->sigev_signo);
    } else if (event->sigev_notify == SIGEV_SIGNAL) {
        next_syscall()(SYS_rt_sigqueueinfo, getpid(), event->sigev_signo, &info);
    } else {
        next_syscall()(SYS_rt_tgsigqueueinfo, getpid(), event->_sigev_un._tid, event->sigev_signo, &info);
    }
}

/* One signal for all its expirations until now. */
static void expire(struct alarm *alarm, uint64_t now) {
    uint64_t more = alarm->interval > 0 ? (now - alarm->end) / alarm->interval : 0;
    alarm->overrun = more > 1000000 ? 1000000 : (int)more;
    alarm->end = alarm->interval > 0 ? alarm->end + (more + 1) * alarm->interval : NEVER;
    send_signal(alarm);
}

void send_alarms(void) {
    uint64_t now = moment_now();
    QUIET;
    if (atomic_load(&first_end) > now) return;
    pthread_mutex_lock(&lock);
    for (struct alarm *alarm = alarms; alarm < alarms + MOST_ALARMS; alarm++)
        if (alarm->is_made && alarm->end <= now) expire(alarm, now);
    atomic_store(&first_end, first_of_all());
    pthread_mutex_unlock(&lock);
}

/* ---- setting ---- */

static struct itimerspec setting_of(const struct alarm *alarm) {
    uint64_t now = moment_now();
    uint64_t left = alarm->end == NEVER ? 0 : alarm->end > now ? alarm->end - now : 1;
    return (struct itimerspec){.it_interval = timespec_of(alarm->interval), .it_value = timespec_of(left)};
}

/* The moment of a first expiration: `value` UNITs from now, or by the alarm's own clock. */
static uint64_t end_of(const struct alarm *alarm, int64_t value, bool is_absolute) {
    int64_t began = is_absolute && is_of_day(alarm->clock) ? EPOCH : 0;
    if (!is_absolute) return moment_now() + (uint64_t)value;
    return value > began ? (uint64_t)(value - began) : 0;
}

/* 0, or minus an error number. Whoever has an alarm may sleep in the real kernel until it comes. */
static int set(struct alarm *alarm, bool is_absolute, const struct itimerspec *given, struct itimerspec *before) {
    int64_t value = units_of(&given->it_value), interval = units_of(&given->it_interval);
    int status = 0;
    if (value < 0 || interval < 0) return -EINVAL;
    if (value > 0) watch_threads();
    pthread_mutex_lock(&lock);
    if (alarm->is_made) {
        if (before) *before = setting_of(alarm);
        alarm->end = value > 0 ? end_of(alarm, value, is_absolute) : NEVER;
        alarm->interval = (uint64_t)interval;
        alarm->overrun = 0;
        atomic_store(&first_end, first_of_all());
    } else {
        status = -EINVAL;
    }
    pthread_mutex_unlock(&lock);
    send_alarms();
    return status;
}

static int tell(const struct alarm *alarm, struct itimerspec *now) {
    int status = 0;
    pthread_mutex_lock(&lock);
    if (alarm->is_made) {
        *now = setting_of(alarm);
    } else {
        status = -EINVAL;
    }
    pthread_mutex_unlock(&lock);
    return status;
}

/* ---- alarm and setitimer ---- */

static struct timeval timeval_of(const struct timespec *time) {
    return (struct timeval){time->tv_sec, time->tv_nsec / 1000};
}

static struct itimerval itimerval_of(const struct itimerspec *setting) {
    return (struct itimerval){timeval_of(&setting->it_interval), timeval_of(&setting->it_value)};
}

static struct timespec nanoseconds_of(const struct timeval *time) {
    if (time->tv_usec < 0 || time->tv_usec >= 1000000) return (struct timespec){-1, 0};
    return (struct timespec){time->tv_sec, time->tv_usec * 1000};
}

int setitimer(__itimer_which_t which, const struct itimerval *given, struct itimerval *before) {
    struct itimerspec value, was;
    int status;
    QUIET;
    if (is_outside || which != ITIMER_REAL) return next_setitimer()(which, given, before);
    if (!READABLE_OR_NULL(given) || !WRITABLE_OR_NULL(before)) return (int)ANSWER(-EFAULT, "setitimer(ITIMER_REAL)");
    value.it_value = given ? nanoseconds_of(&given->it_value) : (struct timespec){0, 0};
    value.it_interval = given ? nanoseconds_of(&given->it_interval) : (struct timespec){0, 0};
    status = set(alarms, false, &value, &was);
    if (status == 0 && before) *before = itimerval_of(&was);
    return (int)ANSWER(status, "setitimer(ITIMER_REAL, %s)", setting_text(TEXT, &value));
}

int getitimer(__itimer_which_t which, struct itimerval *now) {
    struct itimerspec setting;
    QUIET;
    if (is_outside || which != ITIMER_REAL) return next_getitimer()(which, now);
    if (!WRITABLE(now)) return (int)ANSWER(-EFAULT, "getitimer(ITIMER_REAL, %p)", (void *)now);
    tell(alarms, &setting);
    *now = itimerval_of(&setting);
    return (int)ANSWER(0, "getitimer(ITIMER_REAL, %s)", setting_text(TEXT, &setting));
}

/* How many seconds were left, to the nearest one, but not 0 if there were any. */
unsigned int alarm(unsigned int seconds) {
    struct itimerspec value = {.it_value = {seconds, 0}}, before;
    unsigned int left;
    HAND_ON((unsigned int)RAW(SYS_alarm, seconds));
    QUIET;
    set(alarms, false, &value, &before);
    left = (unsigned int)before.it_value.tv_sec;
    if (before.it_value.tv_nsec >= 500000000 || (left == 0 && before.it_value.tv_nsec > 0)) left++;
    return (unsigned int)ANSWER(left, "alarm(%u)", seconds);
}

useconds_t ualarm(useconds_t value, useconds_t interval) {
    struct itimerval given = {{interval / 1000000, interval % 1000000}, {value / 1000000, value % 1000000}}, before;
    if (setitimer(ITIMER_REAL, &given, &before) != 0) return (useconds_t)-1;
    return (useconds_t)(before.it_value.tv_sec * 1000000 + before.it_value.tv_usec);
}

/* ---- timers ---- */

/* The alarm that a timer's number stands for, or NULL where the number is the real kernel's. */
static struct alarm *alarm_of(timer_t timer) {
    struct alarm *alarm = timer;
    return alarm > alarms && alarm < alarms + MOST_ALARMS ? alarm : NULL;
}

static bool is_event(const struct sigevent *event) {
    if (event->sigev_notify == SIGEV_NONE) return true;
    return (event->sigev_notify == SIGEV_SIGNAL || event->sigev_notify == SIGEV_THREAD_ID) && event->sigev_signo > 0 &&
           event->sigev_signo < NSIG;
}

static int make(clockid_t clock, const struct sigevent *event, timer_t *made) {
    struct alarm *alarm = alarms + 1;
    pthread_mutex_lock(&lock);
    while (alarm < alarms + MOST_ALARMS && alarm->is_made) alarm++;
    if (alarm < alarms + MOST_ALARMS) {
        *alarm = (struct alarm){.is_made = true, .clock = clock, .end = NEVER};
        if (event) {
            alarm->event = *event;
        } else {
            alarm->event.sigev_notify = SIGEV_SIGNAL;
            alarm->event.sigev_signo = SIGALRM;
            alarm->event.sigev_value.sival_int = (int)(alarm - alarms);
        }
        *made = alarm;
    }
    pthread_mutex_unlock(&lock);
    return alarm < alarms + MOST_ALARMS ? 0 : -EAGAIN;
}

int timer_create(clockid_t clock, struct sigevent *restrict event, timer_t *restrict made) {
    int status;
    QUIET;
    if (is_outside || !is_clock(clock)) return next_timer_create()(clock, event, made);
    if (!READABLE_OR_NULL(event) || !WRITABLE(made))
        return (int)ANSWER(-EFAULT, "timer_create(%s)", clock_text(TEXT, clock));
    if (event && event->sigev_notify == SIGEV_THREAD)
        return refuse(ENOTSUP, "timer_create: a timer that begins threads (SIGEV_THREAD) is not simulated");
    status = event && !is_event(event) ? -EINVAL : make(clock, event, made);
    return (int)ANSWER(status, "timer_create(%s)", clock_text(TEXT, clock));
}

int timer_settime(timer_t timer, int flags, const struct itimerspec *restrict value,
                  struct itimerspec *restrict before) {
    struct alarm *alarm = alarm_of(timer);
    int status;
    QUIET;
    if (!alarm) return next_timer_settime()(timer, flags, value, before);
    if (!READABLE_OR_NULL(value) || !WRITABLE_OR_NULL(before))
        return (int)ANSWER(-EFAULT, "timer_settime(%d)", (int)(alarm - alarms));
    status = value ? set(alarm, flags & TIMER_ABSTIME, value, before) : -EINVAL;
    return (int)ANSWER(status, "timer_settime(%d, %s, %s)", (int)(alarm - alarms),
                       flags & TIMER_ABSTIME ? "TIMER_ABSTIME" : "0", setting_text(TEXT, value));
}

int timer_gettime(timer_t timer, struct itimerspec *now) {
    struct alarm *alarm = alarm_of(timer);
    int status;
    QUIET;
    if (!alarm) return next_timer_gettime()(timer, now);
    status = WRITABLE(now) ? tell(alarm, now) : -EFAULT;
    return (int)ANSWER(status, "timer_gettime(%d, %s)", (int)(alarm - alarms),
                       setting_text(TEXT, status < 0 ? NULL : now));
}

int timer_getoverrun(timer_t timer) {
    struct alarm *alarm = alarm_of(timer);
    QUIET;
    if (!alarm) return next_timer_getoverrun()(timer);
    return (int)ANSWER(alarm->is_made ? alarm->overrun : -EINVAL, "timer_getoverrun(%d)", (int)(alarm - alarms));
}

int timer_delete(timer_t timer) {
    struct alarm *alarm = alarm_of(timer);
    int status;
    QUIET;
    if (!alarm) return next_timer_delete()(timer);
    pthread_mutex_lock(&lock);
    status = alarm->is_made ? 0 : -EINVAL;
    alarm->is_made = false;
    alarm->end = NEVER;
    atomic_store(&first_end, first_of_all());
    pthread_mutex_unlock(&lock);
    return (int)ANSWER(status, "timer_delete(%d)", (int)(alarm - alarms));
}
