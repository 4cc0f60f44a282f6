/* Calls on small stacks: threads of PTHREAD_STACK_MIN, coroutines of 8 KB, and handlers on an alternate stack of 8 KB,
   which break into waits on each of these, wait themselves, or jump out. The stacks of coroutines tell how much of them
   a call has taken. */
#include "trace.h"

#include <limits.h>
#include <poll.h>
#include <semaphore.h>
#include <setjmp.h>
#include <signal.h>
#include <stdlib.h>
#include <string.h>
#include <sys/epoll.h>
#include <sys/eventfd.h>
#include <sys/mman.h>
#include <sys/select.h>
#include <sys/socket.h>
#include <sys/time.h>
#include <sys/timerfd.h>
#include <sys/uio.h>
#include <threads.h>
#include <ucontext.h>
#include <unistd.h>

enum { COROUTINE = 8192, LARGER = 32768, ALTERNATE = 8192, GUARD = 65536, PAINT = 0xa5, THREADS = 20, USED = 4096 };

static int ends[2], sides[2], counter, timer, instance;
static volatile int came;
static sigjmp_buf out;
static pthread_t sleeping; /* a thread that waits until all is done */

static void alarm_in(int milliseconds) {
    struct itimerval value = {.it_value = {0, milliseconds * 1000}};
    setitimer(ITIMER_REAL, &value, NULL);
}

/* ---- every call, twice: the dynamic linker takes some stack at the first one ---- */

static sem_t semaphore;
static pthread_mutex_t held = PTHREAD_MUTEX_INITIALIZER;
static pthread_rwlock_t read_lock = PTHREAD_RWLOCK_INITIALIZER;
static pthread_cond_t changed = PTHREAD_COND_INITIALIZER;
static mtx_t c11_held;
static cnd_t c11_changed;

static void hold_locks(void) {
    sem_init(&semaphore, 0, 0);
    mtx_init(&c11_held, mtx_timed);
    cnd_init(&c11_changed);
    pthread_mutex_lock(&held);
    mtx_lock(&c11_held);
    pthread_rwlock_rdlock(&read_lock);
}

/* For a millisecond, which is over then. */
static int wait_on_lock(int way) {
    struct timespec time;
    sigset_t none;
    clock_gettime(CLOCK_REALTIME, &time);
    time.tv_sec += time.tv_nsec >= 999000000 ? 1 : 0;
    time.tv_nsec = (time.tv_nsec + 1000000) % 1000000000;
    switch (way) {
    case 0: return sem_timedwait(&semaphore, &time) == -1 && errno == ETIMEDOUT;
    case 1: return pthread_cond_timedwait(&changed, &held, &time) == ETIMEDOUT;
    case 2: return pthread_mutex_timedlock(&held, &time) == ETIMEDOUT;
    case 3: return pthread_rwlock_timedwrlock(&read_lock, &time) == ETIMEDOUT;
    case 4: return pthread_timedjoin_np(sleeping, NULL, &time) == ETIMEDOUT;
    case 5: return cnd_timedwait(&c11_changed, &c11_held, &time) == thrd_timedout;
    case 6: return mtx_timedlock(&c11_held, &time) == thrd_timedout;
    case 7: time = (struct timespec){0, 1000000}; return thrd_sleep(&time, NULL) == 0;
    case 8:
        sigemptyset(&none);
        time = (struct timespec){0, 1000000};
        return sigtimedwait(&none, NULL, &time) == -1 && errno == EAGAIN;
    default: return 0;
    }
}

/* The first ones of `wanted` are other calls. */
enum { LOCKS = 15, WAYS_ON_LOCKS = 9 };

static void call_this(int wanted) {
    struct epoll_event event = {.events = EPOLLIN};
    struct itimerspec value = {.it_value = {100, 0}};
    struct timespec now;
    struct timeval none = {0, 1000};
    struct pollfd file = {ends[0], POLLIN, 0};
    struct iovec one = {&now, 1};
    int pair[2], number = 1;
    socklen_t size = sizeof number;
    fd_set reads;
    char byte;
    switch (wanted) {
    case 0: came += write(ends[1], "xy", 2) == 2; break;
    case 1: came += read(ends[0], &byte, 1) == 1; break;
    case 2: came += epoll_ctl(instance, EPOLL_CTL_MOD, ends[0], &event) == 0; break;
    case 3: came += epoll_wait(instance, &event, 1, 10) == 1; break;
    case 4: came += poll(&file, 1, 10) == 1; break;
    case 5:
        FD_ZERO(&reads);
        FD_SET(counter, &reads);
        came += select(counter + 1, &reads, NULL, NULL, &none) == 0;
        break;
    case 6: came += pipe(pair) == 0 && close(pair[0]) == 0 && close(pair[1]) == 0; break;
    case 7: came += timerfd_settime(timer, 0, &value, NULL) == 0; break;
    case 8: came += clock_gettime(CLOCK_MONOTONIC, &now) == 0; break;
    case 9: came += usleep(1000) == 0; break;
    case 10: came += send(sides[0], "x", 1, 0) == 1 && recv(sides[1], &byte, 1, 0) == 1; break;
    case 11: came += readv(ends[0], &one, 1) == 1; break;
    case 12: came += setsockopt(sides[0], SOL_SOCKET, SO_KEEPALIVE, &number, sizeof number) == 0; break;
    case 13: came += getsockopt(sides[0], SOL_SOCKET, SO_KEEPALIVE, &number, &size) == 0; break;
    case 14: came += eventfd_write(counter, 1) == 0 && read(counter, &value, 8) == 8; break;
    default: came += wait_on_lock(wanted - LOCKS); break;
    }
}
enum { CALLS = LOCKS + WAYS_ON_LOCKS };

/* ---- coroutines ---- */

static ucontext_t outside, inside;
static int wanted;

static void run_wanted(void) { call_this(wanted); }

static void run_as_coroutine(void (*run)(void), char *stack, size_t size) {
    getcontext(&inside);
    inside.uc_stack.ss_sp = stack;
    inside.uc_stack.ss_size = size;
    inside.uc_link = &outside;
    makecontext(&inside, run, 0);
    swapcontext(&outside, &inside);
}

static size_t taken_by(int call, char *stack) {
    size_t free_bytes = 0;
    wanted = call;
    memset(stack, PAINT, COROUTINE);
    run_as_coroutine(run_wanted, stack, COROUTINE);
    while (free_bytes < COROUTINE && (unsigned char)stack[free_bytes] == PAINT) free_bytes++;
    return COROUTINE - free_bytes;
}

static void *sleep_until_done(void *done) {
    sem_wait(done);
    return NULL;
}

static void coroutines(void) {
    char *stack = malloc(COROUTINE);
    size_t most = 0, taken, frame;
    sem_t done;
    came = 0;
    hold_locks();
    sem_init(&done, 0, 0);
    pthread_create(&sleeping, NULL, sleep_until_done, &done);
    frame = taken_by(CALLS, stack);
    for (int turn = 0; turn < 2; turn++)
        for (int call = 0; call < CALLS; call++) {
            taken = taken_by(call, stack);
            if (turn == 1 && taken > most) most = taken;
        }
    sem_post(&done);
    pthread_join(sleeping, NULL);
    trace("coroutines: %d calls, a KB or less each: %d", came, most - frame <= 1024);
    free(stack);
}

/* ---- threads ---- */

/* It has used a quarter of its stack before. */
static void *run_thread(void *nothing) {
    struct epoll_event event = {.events = EPOLLIN}, found;
    int mine = epoll_create1(0), pair[2];
    volatile char used[USED];
    long sum = 0;
    char byte;
    for (int i = 0; i < USED; i++) used[i] = 0;
    sum += used[USED - 1];
    if (pipe(pair) != 0) return nothing;
    epoll_ctl(mine, EPOLL_CTL_ADD, pair[0], &event);
    for (int i = 0; i < 20; i++) {
        sum += write(pair[1], "x", 1);
        sum += epoll_wait(mine, &found, 1, -1);
        sum += read(pair[0], &byte, 1);
        usleep(100);
    }
    close(mine);
    for (int i = 0; i < 2; i++) close(pair[i]);
    return (void *)sum;
}

static void threads(void) {
    pthread_attr_t attributes;
    pthread_t all[THREADS];
    long sum = 0;
    void *part;
    pthread_attr_init(&attributes);
    pthread_attr_setstacksize(&attributes, PTHREAD_STACK_MIN);
    for (int round = 0; round < 3; round++) {
        for (int i = 0; i < THREADS; i++) pthread_create(&all[i], &attributes, run_thread, NULL);
        for (int i = 0; i < THREADS; i++) {
            pthread_join(all[i], &part);
            sum += (long)part;
        }
    }
    pthread_attr_destroy(&attributes);
    trace("threads: %ld", sum);
}

/* ---- handlers ---- */

static void write_byte(int signal) {
    int saved = errno;
    stack_t now;
    (void)signal;
    came += write(ends[1], "h", 1) == 1;
    if (sigaltstack(NULL, &now) == 0 && (now.ss_flags & SS_ONSTACK)) came += 10;
    errno = saved;
}

/* Waits on the alternate stack, which another signal breaks there. */
static void wait_within(int signal) {
    struct pollfd file = {counter, POLLIN, 0};
    (void)signal;
    alarm_in(20);
    came += poll(&file, 1, 1000) == -1 && errno == EINTR ? 100 : 0;
}

static void jump_out(int signal) {
    (void)signal;
    write_byte(signal);
    siglongjmp(out, 1);
}

static void handle(int signal, void (*handler)(int), int flags) {
    struct sigaction action = {.sa_handler = handler, .sa_flags = flags};
    sigaction(signal, &action, NULL);
    came = 0;
}

static int drained(void) {
    char bytes[64];
    struct pollfd file = {ends[0], POLLIN, 0};
    return poll(&file, 1, 0) == 1 ? (int)read(ends[0], bytes, sizeof bytes) : 0;
}

/* What handlers do to a wait, on whatever stack this is. */
static void be_broken(void) {
    struct pollfd file = {counter, POLLIN, 0};
    for (int way = 0; way < 4; way++) {
        handle(SIGALRM, write_byte, way & 1 ? SA_ONSTACK : 0);
        alarm_in(20);
        trace("poll: %ld", outcome(poll(&file, 1, 1000)));
        trace("%d written", drained());
        handle(SIGUSR1, wait_within, way & 2 ? SA_ONSTACK : 0);
        raise(SIGUSR1);
        trace("within: %d", (int)came);
        trace("%d written", drained());
        kill(getpid(), SIGUSR1);
        trace("again: %d", (int)came);
        trace("%d written", drained());
    }
}

static void jump_about(void) {
    struct pollfd file = {counter, POLLIN, 0};
    stack_t now;
    for (volatile int turn = 0; turn < 3; turn++) {
        handle(SIGALRM, jump_out, turn == 0 ? 0 : SA_ONSTACK);
        alarm_in(20);
        if (sigsetjmp(out, 1) == 0) trace("poll: %d", poll(&file, 1, 1000));
        sigaltstack(NULL, &now);
        trace("out, %d came, %d written, used: %d", (int)came, drained(), now.ss_flags);
    }
}

/* Nothing may be written below it. */
static void give_alternate(void) {
    char *pages = mmap(NULL, GUARD + ALTERNATE, PROT_NONE, MAP_PRIVATE | MAP_ANONYMOUS, -1, 0);
    stack_t given = {.ss_sp = pages + GUARD, .ss_size = ALTERNATE};
    if (mprotect(given.ss_sp, ALTERNATE, PROT_READ | PROT_WRITE) != 0 || sigaltstack(&given, NULL) != 0)
        trace("no alternate stack: %d", errno);
}

static void break_and_jump(void) {
    be_broken();
    jump_about();
}

static void *run_small(void *nothing) {
    sigset_t none;
    sigemptyset(&none);
    pthread_sigmask(SIG_SETMASK, &none, NULL);
    give_alternate();
    break_and_jump();
    return nothing;
}

static void handlers(void) {
    pthread_attr_t attributes;
    sigset_t all, before;
    pthread_t thread;
    char *stack = malloc(LARGER);
    sigemptyset(&all);
    sigaddset(&all, SIGALRM);
    sigaddset(&all, SIGUSR1);
    run_small(NULL);
    run_as_coroutine(break_and_jump, stack, LARGER);
    free(stack);
    /* The thread gets the signals, and this one doesn't. */
    pthread_attr_init(&attributes);
    pthread_attr_setstacksize(&attributes, 2 * PTHREAD_STACK_MIN);
    pthread_sigmask(SIG_BLOCK, &all, &before);
    pthread_create(&thread, &attributes, run_small, NULL);
    pthread_join(thread, NULL);
    pthread_sigmask(SIG_SETMASK, &before, NULL);
    pthread_attr_destroy(&attributes);
}

int main(void) {
    struct epoll_event event = {.events = EPOLLIN};
    instance = epoll_create1(0);
    counter = eventfd(0, 0);
    timer = timerfd_create(CLOCK_MONOTONIC, 0);
    if (pipe(ends) != 0 || socketpair(AF_UNIX, SOCK_STREAM, 0, sides) != 0) trace("no ends");
    epoll_ctl(instance, EPOLL_CTL_ADD, ends[0], &event);
    handlers(); /* first, while no call of this thread's has needed another stack */
    coroutines();
    threads();
    trace("end");
    return 0;
}
