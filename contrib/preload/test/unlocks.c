/* Waits with a time that another thread lets a little before their ends. It computes for a while before, and shares its
   processor with processes that compute all the time: so that takes longer than the waits by the real clock. By the
   simulated one each of them is let at the moment at which that thread woke up. Simulated only; unlocks.out is what it
   says. */
#include "processor.h"
#include "trace.h"

#include <sched.h>
#include <semaphore.h>
#include <stdatomic.h>
#include <stdlib.h>
#include <unistd.h>

enum { WAITERS = 16, WAYS = 3, ROUNDS = 3, MILLISECONDS = 100, COMPUTES = 40000000 /* nanoseconds on a processor */ };

static sem_t semaphore;
static pthread_mutex_t lock = PTHREAD_MUTEX_INITIALIZER, held = PTHREAD_MUTEX_INITIALIZER;
static pthread_cond_t changed = PTHREAD_COND_INITIALIZER;
static pthread_barrier_t together;
static int changes;
static long began;
static atomic_long let, in_time;

static struct timespec after(long milliseconds) {
    struct timespec time;
    clock_gettime(CLOCK_REALTIME, &time);
    time.tv_nsec += milliseconds * 1000000;
    time.tv_sec += time.tv_nsec / 1000000000;
    time.tv_nsec %= 1000000000;
    return time;
}

/* Whether it was let. */
static bool wait_until(const struct timespec *until, long way, int round) {
    int error = 0;
    switch (way) {
    case 0: return sem_timedwait(&semaphore, until) == 0;
    case 1:
        pthread_mutex_lock(&lock);
        while (changes == round && error == 0) error = pthread_cond_timedwait(&changed, &lock, until);
        pthread_mutex_unlock(&lock);
        return error == 0;
    default:
        if (pthread_mutex_timedlock(&held, until) != 0) return false;
        pthread_mutex_unlock(&held);
        return true;
    }
}

static void *wait_each_round(void *number) {
    for (int round = 0; round < ROUNDS; round++) {
        struct timespec until;
        pthread_barrier_wait(&together);
        until = after(MILLISECONDS + 1 + (long)number);
        if (wait_until(&until, (long)number % WAYS, round)) let++;
        if (clock_now() - began == MILLISECONDS) in_time++;
        pthread_barrier_wait(&together);
    }
    return NULL;
}

static void let_all(void) {
    for (int i = 0; i < WAITERS; i += WAYS) sem_post(&semaphore);
    pthread_mutex_lock(&lock);
    changes++;
    pthread_cond_broadcast(&changed);
    pthread_mutex_unlock(&lock);
    pthread_mutex_unlock(&held);
}

int main(void) {
    pthread_t threads[WAITERS];
    sem_init(&semaphore, 0, 0);
    pthread_barrier_init(&together, NULL, WAITERS + 1);
    for (long i = 0; i < WAITERS; i++) pthread_create(&threads[i], NULL, wait_each_round, (void *)i);
    take_first_processor();
    for (int round = 0; round < ROUNDS; round++) {
        pthread_mutex_lock(&held);
        began = clock_now();
        pthread_barrier_wait(&together);
        usleep(MILLISECONDS * 1000);
        compute(COMPUTES);
        let_all();
        pthread_barrier_wait(&together);
    }
    for (int i = 0; i < WAITERS; i++) pthread_join(threads[i], NULL);
    trace("%d waits, let: %ld, in time: %ld", WAITERS * ROUNDS, let, in_time);
    return 0;
}
