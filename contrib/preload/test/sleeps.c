/* Threads that sleep for less than a millisecond: their sleeps end at some thousand moments, while the first thread
   sleeps, too, or waits for them in the real kernel. That costs processor time for each moment, but not much more.
   Then two wait on locks for a few microseconds at a time. Simulated only; sleeps.out is what it says. */
#include "trace.h"

#include <semaphore.h>
#include <stdatomic.h>
#include <stdint.h>
#include <stdlib.h>
#include <sys/resource.h>
#include <unistd.h>

enum { THREADS = 20, SLEEPS = 100, ROUNDS = 3, MOST_TIMES = 8, WAITS = 300 };

static atomic_long too_short;

static long microseconds(void) {
    struct timespec now;
    clock_gettime(CLOCK_MONOTONIC, &now);
    return now.tv_sec * 1000000 + now.tv_nsec / 1000;
}

/* From 10 to 1,010 microseconds, in an order that each thread has for itself. */
static void *sleep_often(void *seed) {
    uint32_t random = (uint32_t)(uintptr_t)seed;
    for (int i = 0; i < SLEEPS; i++) {
        long began = microseconds(), count;
        random = random * 1103515245 + 12345;
        count = 10 + (long)((random >> 16) % 1001);
        usleep((useconds_t)count);
        if (microseconds() - began < count) atomic_fetch_add(&too_short, 1);
    }
    return NULL;
}

/* In microseconds, of real time. */
static long processor_time(void) {
    struct rusage used;
    getrusage(RUSAGE_SELF, &used);
    return (used.ru_utime.tv_sec + used.ru_stime.tv_sec) * 1000000 + used.ru_utime.tv_usec + used.ru_stime.tv_usec;
}

/* What it costs. */
static long sleep_in_threads(bool first_sleeps) {
    pthread_t threads[THREADS];
    long began = processor_time();
    for (int i = 0; i < THREADS; i++) pthread_create(&threads[i], NULL, sleep_often, (void *)(uintptr_t)(i + 1));
    if (first_sleeps) sleep(1);
    for (int i = 0; i < THREADS; i++) pthread_join(threads[i], NULL);
    return processor_time() - began;
}

static void compare(void) {
    long counted = 0, joined = 0, began = microseconds(), took;
    for (int i = 0; i < ROUNDS; i++) {
        counted += sleep_in_threads(true);
        joined += sleep_in_threads(false);
    }
    took = microseconds() - began - ROUNDS * 1000000L;
    printf("sleeps: %ld were too short, all took some milliseconds: %d\n", atomic_load(&too_short),
           took > ROUNDS * SLEEPS * 400L && took < ROUNDS * SLEEPS * 700L);
    printf("what it costs to wait for them: ");
    if (joined < MOST_TIMES * counted) {
        printf("not much more\n");
    } else {
        printf("%ld us of processor time, and %ld us to sleep beside them\n", joined, counted);
    }
}

/* ---- waits on locks that end by the clock ---- */

static struct timespec in(clockid_t clock, long count) {
    struct timespec end;
    clock_gettime(clock, &end);
    end.tv_nsec += count * 1000;
    end.tv_sec += end.tv_nsec / 1000000000;
    end.tv_nsec %= 1000000000;
    return end;
}

static void *wait_often(void *nothing) {
    pthread_mutex_t lock = PTHREAD_MUTEX_INITIALIZER;
    pthread_cond_t changed = PTHREAD_COND_INITIALIZER;
    sem_t semaphore;
    int over = 0;
    sem_init(&semaphore, 0, 0);
    pthread_mutex_lock(&lock);
    for (int i = 0; i < WAITS; i++) {
        struct timespec end = in(CLOCK_REALTIME, 10);
        over += pthread_cond_timedwait(&changed, &lock, &end) == ETIMEDOUT;
        end = in(CLOCK_REALTIME, 7);
        over += sem_timedwait(&semaphore, &end) < 0 && errno == ETIMEDOUT;
    }
    pthread_mutex_unlock(&lock);
    if (over != 2 * WAITS) atomic_fetch_add(&too_short, 1);
    return nothing;
}

static void wait_in_threads(void) {
    pthread_t threads[2];
    long began = microseconds(), took;
    for (int i = 0; i < 2; i++) pthread_create(&threads[i], NULL, wait_often, NULL);
    for (int i = 0; i < 2; i++) pthread_join(threads[i], NULL);
    took = microseconds() - began;
    printf("locks: %ld ended too soon, %d us each\n", atomic_load(&too_short),
           took >= WAITS * 17L && took < WAITS * 34L ? 17 : (int)(took / WAITS));
}

/* ---- the first thread ends before another one ---- */

static void *end_later(void *nothing) {
    usleep(1000);
    printf("the first thread has ended\n");
    return nothing;
}

int main(void) {
    pthread_t last;
    compare();
    wait_in_threads();
    pthread_create(&last, NULL, end_later, NULL);
    pthread_exit(NULL);
}
