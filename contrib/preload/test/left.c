/* Waits with a time that sleep in the real kernel, and are left before their end: the thread is cancelled, or a handler
   jumps out. Nothing is known of them then, and other waits end as ever. Threads have large stacks and the smallest. */
#include "trace.h"

#include <limits.h>
#include <poll.h>
#include <semaphore.h>
#include <setjmp.h>
#include <signal.h>
#include <stdlib.h>
#include <string.h>
#include <sys/inotify.h>
#include <sys/time.h>
#include <unistd.h>

enum { CONDITION = 1, WAYS = 4, USED = 6000 };
static const char *const names[WAYS] = {"sem_timedwait", "pthread_cond_timedwait", "poll", "sigtimedwait"};

static sem_t semaphore;
static pthread_mutex_t lock = PTHREAD_MUTEX_INITIALIZER;
static pthread_cond_t changed = PTHREAD_COND_INITIALIZER;
static int outside; /* a real descriptor */
static int cleaned;
static sigjmp_buf out;

/* Nothing ends it for ten seconds. */
static void wait_long(int way) {
    struct timespec until, ten = {10, 0};
    struct pollfd file = {outside, POLLIN, 0};
    sigset_t none;
    clock_gettime(CLOCK_REALTIME, &until);
    until.tv_sec += 10;
    sigemptyset(&none);
    switch (way) {
    case 0: sem_timedwait(&semaphore, &until); break;
    case CONDITION:
        pthread_mutex_lock(&lock);
        pthread_cond_timedwait(&changed, &lock, &until);
        break;
    case 2: poll(&file, 1, 10000); break;
    default: sigtimedwait(&none, NULL, &ten); break;
    }
    trace("%s has ended", names[way]);
}

/* Writes over what a wait has left on the stack. */
static void use_stack(void) {
    volatile char used[USED];
    for (int i = 0; i < USED; i++) used[i] = -1;
    if (used[0] != -1) abort();
}

/* A wait on a condition variable has the lock again. */
static void clean_up(void *way) {
    use_stack();
    usleep(1000);
    if (*(int *)way == CONDITION) pthread_mutex_unlock(&lock);
    cleaned++;
}

static void *run_long(void *way) {
    pthread_cleanup_push(clean_up, way);
    wait_long(*(int *)way);
    pthread_cleanup_pop(0);
    return NULL;
}

static void cancel(int way, const pthread_attr_t *attributes) {
    pthread_t thread;
    void *result;
    pthread_create(&thread, attributes, run_long, &way);
    usleep(100000);
    pthread_cancel(thread);
    pthread_join(thread, &result);
    trace("%s: cancelled %d, cleaned up %d", names[way], result == PTHREAD_CANCELED, cleaned);
}

static void jump(int signal) {
    (void)signal;
    siglongjmp(out, 1);
}

static void jump_out(int way) {
    struct itimerval soon = {{0, 0}, {0, 100000}};
    if (sigsetjmp(out, 1) == 0) {
        setitimer(ITIMER_REAL, &soon, NULL);
        wait_long(way);
    }
    use_stack();
    usleep(1000);
    trace("%s: out", names[way]);
}

int main(void) {
    pthread_attr_t small;
    sem_init(&semaphore, 0, 0);
    outside = inotify_init();
    signal(SIGALRM, jump);
    for (volatile int way = 0; way < WAYS; way++)
        if (way != CONDITION) jump_out(way); /* the C library doesn't let anyone jump out of that */
    signal(SIGALRM, SIG_DFL);
    pthread_attr_init(&small);
    pthread_attr_setstacksize(&small, PTHREAD_STACK_MIN);
    for (int way = 0; way < WAYS; way++) {
        cancel(way, NULL);
        cancel(way, &small);
    }
    usleep(200000);
    trace("end");
    return 0;
}
