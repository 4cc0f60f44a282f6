/* The clock doesn't go on without a thread that a busy machine keeps from running. The first thread computes a little,
   for which it needs seconds, and then sleeps: on its processor another process computes all the time, which is this
   program with a word. Another thread waits meanwhile for longer than the first one sleeps. Simulated only; starved.out
   is what it says. */
#include "processor.h"
#include "trace.h"

#include <sched.h>
#include <semaphore.h>
#include <stdlib.h>
#include <sys/resource.h>
#include <unistd.h>

enum { COMPUTES = 20000000 }; /* for so many nanoseconds, on a processor */

static sem_t semaphore;

static void *wait_long(void *began) {
    struct timespec until;
    int status;
    clock_gettime(CLOCK_REALTIME, &until);
    until.tv_sec += 100000; /* longer than this takes on any machine */
    status = sem_timedwait(&semaphore, &until);
    trace("%ld after %ld ms", outcome(status), clock_now() - *(long *)began);
    return NULL;
}

int main(int count, char **words) {
    long began = clock_now();
    pthread_t thread;
    if (count > 1) {
        take_first_processor();
        printf("%s\n", words[1]);
        fflush(stdout);
        for (;;) continue;
    }
    sem_init(&semaphore, 0, 0);
    pthread_create(&thread, NULL, wait_long, &began);
    take_first_processor();
    if (setpriority(PRIO_PROCESS, 0, 19) != 0) abort(); /* of this thread only */
    compute(COMPUTES);
    usleep(100000);
    sem_post(&semaphore);
    pthread_join(thread, NULL);
    return 0;
}
