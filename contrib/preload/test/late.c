/* Waits with a time on locks, by so many threads that they end late: together, but by 50 microseconds for each thread
   that waits so at most, up to a millisecond. What else happens meanwhile isn't late at all. It is so on a busy machine,
   too. Simulated only; late.out is what it says. */
#include "trace.h"

#include <semaphore.h>
#include <stdatomic.h>
#include <stdlib.h>
#include <unistd.h>

enum { MOST_THREADS = 40, ROUNDS = 50, MOST_MOMENTS = 8 * ROUNDS, BESIDE = 20, SLEEPS = 100, SLEEP = 150 };

static atomic_long too_soon;
static long moments[MOST_THREADS * ROUNDS], late_by[MOST_THREADS * ROUNDS];

static long microseconds(void) {
    struct timespec now;
    clock_gettime(CLOCK_MONOTONIC, &now);
    return now.tv_sec * 1000000 + now.tv_nsec / 1000;
}

static struct timespec in(long count) {
    struct timespec end;
    clock_gettime(CLOCK_REALTIME, &end);
    end.tv_nsec += count * 1000;
    end.tv_sec += end.tv_nsec / 1000000000;
    end.tv_nsec %= 1000000000;
    return end;
}

/* Each thread waits for another time than the others, from 10 microseconds to 2.7 milliseconds. */
static long time_of(long number) { return 10 + 70 * number; }

static void *wait_often(void *given) {
    long number = (long)given, most = time_of(number), *found = moments + number * ROUNDS;
    long *late = late_by + number * ROUNDS;
    pthread_mutex_t lock = PTHREAD_MUTEX_INITIALIZER;
    pthread_cond_t changed = PTHREAD_COND_INITIALIZER;
    sem_t semaphore;
    sem_init(&semaphore, 0, 0);
    pthread_mutex_lock(&lock);
    for (int i = 0; i < ROUNDS; i++) {
        long began = microseconds();
        struct timespec end = in(most);
        int error = i % 2 == 0 ? pthread_cond_timedwait(&changed, &lock, &end)
                               : sem_timedwait(&semaphore, &end) < 0 ? errno : 0;
        if (error != ETIMEDOUT) abort();
        found[i] = microseconds();
        late[i] = found[i] - began - most;
        if (late[i] < 0) atomic_fetch_add(&too_soon, 1);
    }
    pthread_mutex_unlock(&lock);
    return NULL;
}

static void start(int count, pthread_t threads[]) {
    for (long i = 0; i < count; i++) pthread_create(&threads[i], NULL, wait_often, (void *)i);
}

static void join(int count, const pthread_t threads[]) {
    for (int i = 0; i < count; i++) pthread_join(threads[i], NULL);
}

static int compare(const void *a, const void *b) {
    long first = *(const long *)a, second = *(const long *)b;
    return first < second ? -1 : first > second;
}

/* How late so many threads' waits were at most, and how late that may be. */
static long lateness(int threads) {
    long most = 0;
    for (int i = 0; i < threads * ROUNDS; i++)
        if (late_by[i] > most) most = late_by[i];
    return most;
}

static long most_of(int threads) { return threads * 50 < 1000 ? threads * 50 : 1000; }

/* ---- together ---- */

/* At how many moments so many threads have found that their waits were over. */
static int count_moments(int threads) {
    int count = 1, all = threads * ROUNDS;
    qsort(moments, (size_t)all, sizeof *moments, compare);
    for (int i = 1; i < all; i++) count += moments[i] != moments[i - 1];
    return count;
}

static void wait_in_threads(int count) {
    pthread_t threads[MOST_THREADS];
    long late;
    int found;
    start(count, threads);
    join(count, threads);
    found = count_moments(count);
    late = lateness(count);
    printf("%d threads: ", count);
    if (found > MOST_MOMENTS) printf("%d waits ended at %d moments, ", count * ROUNDS, found);
    if (late > most_of(count)) printf("one was %ld us late, ", late);
    printf("%ld too soon\n", atomic_load(&too_soon));
}

/* ---- beside a thread that sleeps ---- */

static void *sleep_often(void *late) {
    *(long *)late = 0;
    for (int i = 0; i < SLEEPS; i++) {
        long began = microseconds();
        usleep(SLEEP);
        *(long *)late += microseconds() - began - SLEEP;
    }
    return NULL;
}

static void sleep_beside(void) {
    pthread_t threads[MOST_THREADS], sleeper;
    long late, waits_late;
    start(BESIDE, threads);
    pthread_create(&sleeper, NULL, sleep_often, &late);
    pthread_join(sleeper, NULL);
    join(BESIDE, threads);
    waits_late = lateness(BESIDE);
    printf("beside %d threads: ", BESIDE);
    if (late > 0) printf("%d sleeps were %ld us late, ", SLEEPS, late);
    if (waits_late > most_of(BESIDE)) printf("one wait was %ld us late, ", waits_late);
    printf("%ld waits were too soon\n", atomic_load(&too_soon));
}

int main(void) {
    wait_in_threads(1);
    wait_in_threads(4);
    wait_in_threads(20);
    wait_in_threads(MOST_THREADS);
    sleep_beside();
    return 0;
}
