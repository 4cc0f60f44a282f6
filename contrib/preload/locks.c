/* More waits with a time that sleep in the real kernel: locks for reading and writing, the end of a thread, message
   queues, and what C11 has of threads. Each ends by the simulated clock, as threads.c has it for all of them. */
#include "preload.h"

#include <mqueue.h>
#include <pthread.h>
#include <stdlib.h>
#include <threads.h>

FORWARD(mq_timedreceive)
FORWARD(mq_timedsend)
FORWARD(pthread_rwlock_timedrdlock)
FORWARD(pthread_rwlock_timedwrlock)
FORWARD(pthread_timedjoin_np)

/* In a child the clocks are real. */
static struct timespec real_day_of(clockid_t clock, const struct timespec *time) {
    struct timespec day, now;
    if (clock != CLOCK_MONOTONIC) return *time;
    clock_gettime(CLOCK_REALTIME, &day);
    clock_gettime(CLOCK_MONOTONIC, &now);
    day.tv_sec += time->tv_sec - now.tv_sec;
    day.tv_nsec += time->tv_nsec - now.tv_nsec;
    if (day.tv_nsec < 0) day.tv_sec--, day.tv_nsec += 1000000000;
    if (day.tv_nsec >= 1000000000) day.tv_sec++, day.tv_nsec -= 1000000000;
    return day;
}

/* The same moment by CLOCK_REALTIME, by which the plain functions wait. What was before the simulated clock began is
   a moment of then. */
static struct timespec day_of(clockid_t clock, const struct timespec *time) {
    struct timespec day = *time;
    if (is_outside) return real_day_of(clock, time);
    if (clock != CLOCK_MONOTONIC) {
        if (day.tv_sec < EPOCH_SECONDS) day.tv_sec = EPOCH_SECONDS;
    } else if (day.tv_sec < 0) {
        day.tv_sec = EPOCH_SECONDS;
    } else {
        day.tv_sec = day.tv_sec < INT64_MAX - EPOCH_SECONDS ? day.tv_sec + EPOCH_SECONDS : INT64_MAX;
    }
    return day;
}

/* As the C library has it. */
static bool can_wait_by(clockid_t clock) { return clock == CLOCK_REALTIME || clock == CLOCK_MONOTONIC; }

/* ---- locks for reading and writing ---- */

static int lock_for_reading(void *lock, const struct timespec *until) {
    return next_pthread_rwlock_timedrdlock()(lock, until);
}

static int lock_for_writing(void *lock, const struct timespec *until) {
    return next_pthread_rwlock_timedwrlock()(lock, until);
}

int pthread_rwlock_clockrdlock(pthread_rwlock_t *restrict lock, clockid_t clock, const struct timespec *restrict time) {
    struct timespec day = day_of(clock, time);
    return can_wait_by(clock) ? wait_until(&day, lock_for_reading, lock) : EINVAL;
}

int pthread_rwlock_clockwrlock(pthread_rwlock_t *restrict lock, clockid_t clock, const struct timespec *restrict time) {
    struct timespec day = day_of(clock, time);
    return can_wait_by(clock) ? wait_until(&day, lock_for_writing, lock) : EINVAL;
}

int pthread_rwlock_timedrdlock(pthread_rwlock_t *restrict lock, const struct timespec *restrict time) {
    return pthread_rwlock_clockrdlock(lock, CLOCK_REALTIME, time);
}

int pthread_rwlock_timedwrlock(pthread_rwlock_t *restrict lock, const struct timespec *restrict time) {
    return pthread_rwlock_clockwrlock(lock, CLOCK_REALTIME, time);
}

/* ---- the end of a thread ---- */

struct joining {
    pthread_t thread;
    void **result;
};

static int join(void *given, const struct timespec *until) {
    const struct joining *joining = given;
    return next_pthread_timedjoin_np()(joining->thread, joining->result, until);
}

/* Without a time it waits for as long as it takes. */
int pthread_clockjoin_np(pthread_t thread, void **result, clockid_t clock, const struct timespec *time) {
    struct joining joining = {thread, result};
    struct timespec day;
    if (!time) return pthread_join(thread, result);
    if (!can_wait_by(clock)) return EINVAL;
    day = day_of(clock, time);
    return wait_until(&day, join, &joining);
}

int pthread_timedjoin_np(pthread_t thread, void **result, const struct timespec *time) {
    return pthread_clockjoin_np(thread, result, CLOCK_REALTIME, time);
}

/* ---- message queues ---- */

struct message {
    mqd_t queue;
    char *bytes;
    size_t count;
    unsigned int *priority;
    unsigned long breaks; /* the thread's when it began */
    ssize_t got;
};

/* A handler may have run between two sleeps of the wait, which would have broken it on Linux. */
static bool is_broken(const struct message *message) { return this_thread.breaks != message->breaks; }

static int receive(void *given, const struct timespec *until) {
    struct message *message = given;
    if (is_broken(message)) return EINTR;
    message->got =
        next_mq_timedreceive()(message->queue, message->bytes, message->count, message->priority, until);
    return message->got < 0 ? errno : 0;
}

static int post(void *given, const struct timespec *until) {
    struct message *message = given;
    if (is_broken(message)) return EINTR;
    message->got = next_mq_timedsend()(message->queue, message->bytes, message->count, *message->priority, until);
    return message->got < 0 ? errno : 0;
}

/* Without a time they wait for as long as it takes, though the header says that there has to be one. For a bad pointer
   the real kernel answers. */
static bool has_time(const struct timespec *volatile time) { return time && READABLE(time); }

static ssize_t answer_to(const struct message *message, int error) {
    if (error == 0) return message->got;
    errno = error;
    return -1;
}

ssize_t mq_timedreceive(mqd_t queue, char *restrict bytes, size_t count, unsigned int *restrict priority,
                        const struct timespec *restrict time) {
    struct message message = {queue, bytes, count, priority, this_thread.breaks, -1};
    struct timespec day;
    if (!has_time(time)) return next_mq_timedreceive()(queue, bytes, count, priority, time);
    day = day_of(CLOCK_REALTIME, time);
    return answer_to(&message, wait_until(&day, receive, &message));
}

int mq_timedsend(mqd_t queue, const char *bytes, size_t count, unsigned int priority, const struct timespec *time) {
    struct message message = {queue, (char *)(uintptr_t)bytes, count, &priority, this_thread.breaks, -1};
    struct timespec day;
    if (!has_time(time)) return next_mq_timedsend()(queue, bytes, count, priority, time);
    day = day_of(CLOCK_REALTIME, time);
    return (int)answer_to(&message, wait_until(&day, post, &message));
}

/* ---- threads of C11, which are those of POSIX in the C library ---- */

static int c11_answer(int error) {
    switch (error) {
    case 0: return thrd_success;
    case ENOMEM: return thrd_nomem;
    case ETIMEDOUT: return thrd_timedout;
    case EBUSY: return thrd_busy;
    default: return thrd_error;
    }
}

int cnd_timedwait(cnd_t *restrict changed, mtx_t *restrict lock, const struct timespec *restrict time) {
    return c11_answer(pthread_cond_timedwait((pthread_cond_t *)(void *)changed, (pthread_mutex_t *)(void *)lock, time));
}

int mtx_timedlock(mtx_t *restrict lock, const struct timespec *restrict time) {
    return c11_answer(pthread_mutex_timedlock((pthread_mutex_t *)(void *)lock, time));
}

int thrd_sleep(const struct timespec *time, struct timespec *left) {
    int error = clock_nanosleep(CLOCK_REALTIME, 0, time, left);
    return error == 0 ? 0 : error == EINTR ? -1 : -2;
}

struct c11_thread {
    thrd_start_t run;
    void *argument;
};

static void *run_c11(void *given) {
    struct c11_thread thread = *(struct c11_thread *)given;
    free(given);
    return (void *)(intptr_t)thread.run(thread.argument);
}

/* By pthread_create, so that it takes part from the start. */
int thrd_create(thrd_t *made, thrd_start_t run, void *argument) {
    struct c11_thread *thread = malloc(sizeof *thread);
    int error;
    if (!thread) return thrd_nomem;
    *thread = (struct c11_thread){run, argument};
    error = pthread_create(made, NULL, run_c11, thread);
    if (error != 0) free(thread);
    return c11_answer(error);
}
