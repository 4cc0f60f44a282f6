/* Waits with a time on locks, on the end of a thread, on message queues, and those of C11. Each of them waits for as
   long as it says, by the clock that it says, and for less if another thread lets it. That thread waits to be asked, for
   on the real kernel a busy machine makes each of them as late as it likes. Lines tell so what holds there, too. By the
   simulated clock each takes as long as it says: locks.out. */
#include "trace.h"

#include <fcntl.h>
#include <mqueue.h>
#include <semaphore.h>
#include <signal.h>
#include <stdatomic.h>
#include <stdlib.h>
#include <sys/stat.h>
#include <sys/time.h>
#include <threads.h>
#include <unistd.h>

static pthread_rwlock_t lock = PTHREAD_RWLOCK_INITIALIZER;

static struct timespec after(clockid_t clock, long milliseconds) {
    struct timespec time;
    clock_gettime(clock, &time);
    time.tv_nsec += milliseconds * 1000000;
    time.tv_sec += time.tv_nsec / 1000000000;
    time.tv_nsec %= 1000000000;
    return time;
}

static long began;

static void begin(void) { began = clock_now(); }

/* Those of POSIX answer an error number. The real clocks of a wait and of this one may differ by a little. */
static void tell(const char *call, long result, long least) {
    trace("%s: %ld, not before %ld ms: %d", call, result, least, clock_now() - began + 1 >= least);
    began = clock_now();
}

static void sleep_for(long milliseconds) {
    struct timespec time = {milliseconds / 1000, milliseconds % 1000 * 1000000};
    nanosleep(&time, NULL);
}

/* What a thread holds until it is asked. */
static sem_t is_held, is_asked;

static void hold_until_asked(void) {
    sem_post(&is_held);
    sem_wait(&is_asked);
    sleep_for(100);
}

static void ask(void) { sem_post(&is_asked); }

/* Something else happens meanwhile, again and again. */
static atomic_bool is_ticking;

static void *tick(void *unused) {
    while (is_ticking) sleep_for(30);
    return unused;
}

static pthread_t start_ticking(void) {
    pthread_t ticking;
    is_ticking = true;
    pthread_create(&ticking, NULL, tick, NULL);
    return ticking;
}

static void stop_ticking(pthread_t ticking) {
    is_ticking = false;
    pthread_join(ticking, NULL);
}

/* ---- locks for reading and writing ---- */

static void *hold_lock(void *unused) {
    pthread_rwlock_wrlock(&lock);
    hold_until_asked();
    pthread_rwlock_unlock(&lock);
    return unused;
}

static void rwlocks(void) {
    struct timespec time, wrong = {0, 1000000000};
    pthread_t holder;
    pthread_create(&holder, NULL, hold_lock, NULL);
    sem_wait(&is_held);
    begin();
    time = after(CLOCK_REALTIME, 100);
    tell("timedrdlock", pthread_rwlock_timedrdlock(&lock, &time), 100);
    tell("timedwrlock in the past", pthread_rwlock_timedwrlock(&lock, &time), 0);
    time = after(CLOCK_REALTIME, 100);
    tell("timedwrlock", pthread_rwlock_timedwrlock(&lock, &time), 100);
    time = after(CLOCK_MONOTONIC, 100);
    tell("clockrdlock", pthread_rwlock_clockrdlock(&lock, CLOCK_MONOTONIC, &time), 100);
    time = after(CLOCK_REALTIME, 100);
    tell("clockwrlock", pthread_rwlock_clockwrlock(&lock, CLOCK_REALTIME, &time), 100);
    tell("another clock", pthread_rwlock_clockwrlock(&lock, CLOCK_BOOTTIME, &time), 0);
    tell("no time", pthread_rwlock_timedrdlock(&lock, &wrong), 0);
    time = after(CLOCK_REALTIME, 100000);
    ask();
    tell("until it is let go", pthread_rwlock_timedwrlock(&lock, &time), 100);
    pthread_rwlock_unlock(&lock);
    pthread_join(holder, NULL);
    begin();
    tell("it is free", pthread_rwlock_timedrdlock(&lock, &time), 0);
    pthread_rwlock_unlock(&lock);
}

/* ---- the end of a thread ---- */

static void *end_when_asked(void *result) {
    hold_until_asked();
    return result;
}

static void joins(void) {
    struct timespec time;
    pthread_t thread;
    void *result = NULL;
    pthread_create(&thread, NULL, end_when_asked, (void *)300L);
    sem_wait(&is_held);
    begin();
    time = after(CLOCK_REALTIME, 100);
    tell("timedjoin", pthread_timedjoin_np(thread, &result, &time), 100);
    time = after(CLOCK_MONOTONIC, 100);
    tell("clockjoin", pthread_clockjoin_np(thread, &result, CLOCK_MONOTONIC, &time), 100);
    time = after(CLOCK_REALTIME, 100000);
    ask();
    tell("until it ends", pthread_timedjoin_np(thread, &result, &time), 100);
    trace("its result: %ld", (long)result);
    pthread_create(&thread, NULL, end_when_asked, (void *)100L);
    sem_wait(&is_held);
    begin();
    ask();
    tell("without a time", pthread_timedjoin_np(thread, &result, NULL), 100);
}

/* ---- message queues ---- */

static void *send_later(void *queue) {
    sleep_for(200);
    return (void *)(long)mq_send(*(mqd_t *)queue, "word", 5, 3);
}

static void *receive_later(void *queue) {
    char bytes[16];
    sleep_for(200);
    return (void *)(long)mq_receive(*(mqd_t *)queue, bytes, sizeof bytes, NULL);
}

static void on_alarm(int signal) { (void)signal; }

/* A handler ends the wait of a queue, unless it is to go on after it. The alarm comes again, for the first one may come
   before the wait. */
static void broken(mqd_t queue, int flags, long most, long least) {
    struct sigaction action = {.sa_handler = on_alarm, .sa_flags = flags};
    struct itimerval soon = {{0, 100000}, {0, 100000}}, never = {{0, 0}, {0, 0}};
    struct timespec time;
    char bytes[16];
    long result;
    sigaction(SIGALRM, &action, NULL);
    begin();
    time = after(CLOCK_REALTIME, most);
    setitimer(ITIMER_REAL, &soon, NULL);
    result = outcome(mq_timedreceive(queue, bytes, sizeof bytes, NULL, &time));
    setitimer(ITIMER_REAL, &never, NULL);
    tell("with an alarm", result, least);
}

static void queues(void) {
    struct mq_attr like = {.mq_maxmsg = 1, .mq_msgsize = 16};
    char name[64], bytes[16];
    struct timespec time;
    unsigned int priority = 0;
    pthread_t thread;
    mqd_t queue;
    snprintf(name, sizeof name, "/nippersage-%d", getpid());
    queue = mq_open(name, O_RDWR | O_CREAT | O_EXCL, 0600, &like);
    mq_unlink(name);
    if (queue < 0) {
        trace("no message queues");
        return;
    }
    begin();
    time = after(CLOCK_REALTIME, 100);
    tell("timedreceive", outcome(mq_timedreceive(queue, bytes, sizeof bytes, &priority, &time)), 100);
    tell("in the past", outcome(mq_timedreceive(queue, bytes, sizeof bytes, &priority, &time)), 0);
    broken(queue, 0, 100000, 100);
    broken(queue, SA_RESTART, 250, 250);
    begin();
    pthread_create(&thread, NULL, send_later, &queue);
    time = after(CLOCK_REALTIME, 100000);
    tell("until one comes", outcome(mq_timedreceive(queue, bytes, sizeof bytes, &priority, &time)), 200);
    trace("%s, %u", bytes, priority);
    pthread_join(thread, NULL);
    begin();
    time = after(CLOCK_REALTIME, 100);
    tell("timedsend", outcome(mq_timedsend(queue, "first", 6, 0, &time)), 0);
    time = after(CLOCK_REALTIME, 100);
    tell("to a full one", outcome(mq_timedsend(queue, "second", 7, 0, &time)), 100);
    pthread_create(&thread, NULL, receive_later, &queue);
    time = after(CLOCK_REALTIME, 100000);
    tell("until there is room", outcome(mq_timedsend(queue, "third", 6, 0, &time)), 200);
    pthread_join(thread, NULL);
    mq_close(queue);
}

/* ---- C11 ---- */

static mtx_t c11_lock;
static cnd_t c11_changed;
static bool is_changed;

static int change(void *milliseconds) {
    sleep_for((long)milliseconds);
    mtx_lock(&c11_lock);
    is_changed = true;
    cnd_signal(&c11_changed);
    mtx_unlock(&c11_lock);
    return 7;
}

static int hold_mutex(void *unused) {
    (void)unused;
    mtx_lock(&c11_lock);
    hold_until_asked();
    mtx_unlock(&c11_lock);
    return 8;
}

static void of_c11(void) {
    struct timespec time = {0, 100000000}, none = {0, -1};
    thrd_t thread;
    int result = 0;
    begin();
    tell("thrd_sleep", thrd_sleep(&time, NULL), 100);
    tell("no time", thrd_sleep(&none, NULL), 0);
    mtx_init(&c11_lock, mtx_timed);
    cnd_init(&c11_changed);
    mtx_lock(&c11_lock);
    time = after(CLOCK_REALTIME, 100);
    tell("cnd_timedwait", cnd_timedwait(&c11_changed, &c11_lock, &time) == thrd_timedout, 100);
    thrd_create(&thread, change, (void *)100L);
    time = after(CLOCK_REALTIME, 100000);
    while (!is_changed && result == 0) result = cnd_timedwait(&c11_changed, &c11_lock, &time);
    tell("until it is changed", result, 100);
    mtx_unlock(&c11_lock);
    thrd_join(thread, &result);
    trace("the thread's result: %d", result);
    thrd_create(&thread, hold_mutex, NULL);
    sem_wait(&is_held);
    begin();
    time = after(CLOCK_REALTIME, 100);
    tell("mtx_timedlock", mtx_timedlock(&c11_lock, &time) == thrd_timedout, 100);
    time = after(CLOCK_REALTIME, 100000);
    ask();
    tell("until it is let go", mtx_timedlock(&c11_lock, &time), 100);
    mtx_unlock(&c11_lock);
    thrd_join(thread, &result);
    trace("the thread's result: %d", result);
}

/* ---- two waits on one condition variable ---- */

static pthread_mutex_t shared_lock = PTHREAD_MUTEX_INITIALIZER;
static pthread_cond_t shared = PTHREAD_COND_INITIALIZER;
static bool is_over;
static int returns;

static void *wait_until_over(void *unused) {
    pthread_mutex_lock(&shared_lock);
    while (!is_over) {
        pthread_cond_wait(&shared, &shared_lock);
        returns++;
    }
    pthread_mutex_unlock(&shared_lock);
    return unused;
}

/* One that ends by its time wakes only itself. */
static void conditions(void) {
    struct timespec time;
    pthread_t other;
    int result;
    begin();
    pthread_create(&other, NULL, wait_until_over, NULL);
    pthread_mutex_lock(&shared_lock);
    time = after(CLOCK_REALTIME, 100);
    result = pthread_cond_timedwait(&shared, &shared_lock, &time);
    pthread_mutex_unlock(&shared_lock);
    tell("beside another wait", result, 100);
    sleep_for(100);
    pthread_mutex_lock(&shared_lock);
    trace("that one has returned: %d", returns);
    is_over = true;
    pthread_cond_signal(&shared);
    pthread_mutex_unlock(&shared_lock);
    pthread_join(other, NULL);
}

int main(void) {
    pthread_t ticking;
    sem_init(&is_held, 0, 0);
    sem_init(&is_asked, 0, 0);
    of_c11();
    ticking = start_ticking();
    rwlocks();
    stop_ticking(ticking);
    joins();
    ticking = start_ticking();
    queues();
    stop_ticking(ticking);
    conditions();
    return 0;
}
