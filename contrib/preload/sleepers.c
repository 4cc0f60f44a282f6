/* Threads that sleep in waits of the simulated kernel: how they wake, what handlers of signals do to them, and who
   moves the clock. A caller parks in the kernel by hand; its thread sleeps on a word of its own. Whoever makes an event
   then asks for all callers that it has marked, and gives their threads the answers.

   A handler may run while a thread sleeps, and at no other place of a wait. Its calls have another caller, for the
   thread's own is parked. A wait that it breaks has to leave the kernel, which knows no signals: see leave. */
#include "preload.h"

#include <linux/futex.h>
#include <pthread.h>
#include <stdio.h>
#include <stdlib.h>
#include <sys/syscall.h>

FORWARD(syscall)

enum { ENDLESS = -5000 }; /* the result of a wait that nothing can end */
#define NEVER UINT64_MAX

/* A wait that its thread sleeps in, or a handler of its thread runs in. */
struct sleeper {
    const struct wait *wait;
    uint64_t end; /* by the simulated clock */
    uint32_t caller;
    int result;           /* NIPPERSAGE_PARKED until its answer is there */
    int handlers;         /* so many handlers run in it */
    bool is_rung;         /* it left the kernel because a bell rang: see leave */
    bool is_asleep;       /* it is counted among those that sleep */
    bool awaits_children; /* it sleeps until a child does something */
    long thread;          /* the real kernel's number */
    struct seat *seat;    /* of the thread */
    _Atomic uint32_t word; /* goes on at each news */
    uint32_t slept_on;     /* what it was when the thread went to sleep */
    struct sleeper *outer; /* the wait of the same thread in whose handler this one was begun, or NULL */
    int depth;             /* the thread's when it began */
    uintptr_t place;       /* where on the program's stack the call was made */
    struct sleeper *next;
};

/* The lock is held over each wait's begin and over each question for its end, so nobody else sees a bell. */
static pthread_mutex_t lock = PTHREAD_MUTEX_INITIALIZER;
static struct sleeper *sleepers; /* in the order in which they came */
static atomic_int count;         /* of sleepers */
static int asleep;               /* those whose threads sleep, so that nothing but news or a signal wakes them */
static unsigned long woken;      /* so often one of them was woken, or a thread more took part */
static int threads = 1;          /* that take part */

static struct nippersage_task task_of(const struct sleeper *s) {
    return (struct nippersage_task){the_kernel(), s->caller, 1};
}

static void count_asleep(struct sleeper *s, bool is_asleep) {
    if (s->is_asleep == is_asleep) return;
    asleep += is_asleep ? 1 : -1;
    if (!is_asleep) woken++;
    s->is_asleep = is_asleep;
    mark_asleep(s->seat, is_asleep);
}

static void wake(struct sleeper *s) {
    count_asleep(s, false);
    atomic_fetch_add(&s->word, 1);
    next_syscall()(SYS_futex, &s->word, FUTEX_WAKE | FUTEX_PRIVATE_FLAG, 1, NULL, NULL, 0);
}

static void answer(struct sleeper *s, int result) {
    s->result = result;
    wake(s);
}

/* ---- parking, and asking ---- */

/* Begins a wait in the kernel, or begins it again for as long as it has left. */
static int park(struct sleeper *s) {
    uint64_t now = moment_now();
    struct timespec left = timespec_of(s->end > now ? s->end - now : 0);
    return nippersage_pwait2_start(task_of(s), s->wait->instance, s->wait->events, s->wait->most,
                                   s->end == NEVER ? NULL : &left);
}

static const char bell_mark; /* its address is the data of a bell's registration */

/* Takes the report of a bell out of reports: how many are left. */
static int without_bell(struct epoll_event *events, int found) {
    int kept = 0;
    for (int i = 0; i < found; i++)
        if (events[i].data.ptr != &bell_mark) events[kept++] = events[i];
    return kept;
}

/* Asks whether the wait of a marked caller has ended. */
static void ask(struct sleeper *s) {
    int result = nippersage_resume(task_of(s), s->wait->events, s->wait->most);
    if (result > 0) {
        int kept = without_bell(s->wait->events, result);
        s->is_rung = kept == 0;
        result = kept > 0 ? kept : NIPPERSAGE_PARKED;
    }
    if (result != NIPPERSAGE_PARKED) answer(s, result);
}

static bool is_at(const struct sleeper *s, const struct wait *wait) {
    return wait->place ? s->wait->place == wait->place : !s->wait->place && s->wait->instance == wait->instance;
}

/* Asks for all that are marked: all of them, or those at the instance of a wait. To ask for one may mark the next. */
static void deliver(const struct wait *at) {
    bool goes_on = true;
    while (goes_on) {
        goes_on = false;
        for (struct sleeper *s = sleepers; s; s = s->next) {
            if (s->result != NIPPERSAGE_PARKED || s->is_rung || (at && !is_at(s, at))) continue;
            if (nippersage_is_marked(the_kernel(), s->caller) != 1) continue;
            ask(s);
            goes_on = true;
        }
    }
}

static void deliver_all(void) {
    uint32_t first;
    if (nippersage_first_marked(the_kernel(), &first) == 1) deliver(NULL);
}

void wake_sleepers(void) {
    if (atomic_load(&count) == 0) return;
    pthread_mutex_lock(&lock);
    deliver_all();
    pthread_mutex_unlock(&lock);
}

void lock_sleepers(void) { pthread_mutex_lock(&lock); }

void unlock_sleepers(void) { pthread_mutex_unlock(&lock); }

bool is_partly_asleep(void) {
    bool so;
    QUIET_WITHIN;
    pthread_mutex_lock(&lock);
    so = asleep > 0 && asleep < threads;
    pthread_mutex_unlock(&lock);
    return so;
}

bool are_all_asleep(void) {
    bool so;
    QUIET_WITHIN;
    pthread_mutex_lock(&lock);
    so = asleep >= threads;
    pthread_mutex_unlock(&lock);
    return so;
}

bool is_anyone_waiting(void) { return atomic_load(&count) > 0; }

/* ---- leaving ---- */

/* Where a caller can't leave, its number stays parked for good, and its thread takes another one. */
static void give_up_caller(struct sleeper *s) {
    this_thread.callers[this_thread.depth] = 0;
    answer(s, -EINTR);
}

/* The instance's number, though it was perhaps copied to another one and closed; -1 if it has none. */
static int instance_of(const struct wait *wait) {
    return wait->place ? number_that_names(wait->place) : wait->instance;
}

/* Registers a bell, which is an eventfd of the shim's own that is ready. Its number, or minus an error number. */
static int ring(int instance) {
    struct epoll_event event = {.events = EPOLLIN, .data.ptr = (void *)(uintptr_t)&bell_mark};
    int bell = instance < 0 ? instance : make_own_eventfd(1), status;
    if (bell < 0) return bell;
    status = nippersage_epoll_ctl(self(), instance, EPOLL_CTL_ADD, bell, &event);
    if (status == 0) return bell;
    end_own(bell);
    return status;
}

/* Takes the caller of a broken wait out of the kernel. Nothing is reportable at its instance, or it would have an
   answer. So a bell is registered there: it marks all that are parked at the instance, one after the other, and each
   leaves with a report of the bell. The bell goes, and all but this one are parked again, in the order in which they
   were. If something has come meanwhile, the wait has an answer. */
static void leave(struct sleeper *me) {
    int bell;
    this_thread.depth++; /* another caller, for this one is parked */
    bell = ring(instance_of(me->wait));
    if (bell >= 0) {
        deliver(me->wait);
        end_own(bell);
    }
    this_thread.depth--;
    for (struct sleeper *s = sleepers; s; s = s->next)
        if (s->is_rung && s != me) {
            int result = park(s);
            s->is_rung = false;
            if (result != NIPPERSAGE_PARKED) answer(s, result);
        }
    if (me->is_rung) {
        me->is_rung = false; /* it stays in the list while its handler runs, and isn't parked again */
        answer(me, -EINTR);
    } else if (me->result == NIPPERSAGE_PARKED) {
        give_up_caller(me);
    }
}

/* ---- handlers ---- */

void disturb(struct sleeper *s) { atomic_fetch_add(&s->word, 1); }

/* A wait that the handler breaks ends before the handler runs, as on Linux: what the handler makes ready is no answer
   to it. What was ready before is one. */
void begin_handler_in(void *sleeper, long restarts) {
    struct sleeper *s = sleeper;
    int depth = this_thread.depth;
    QUIET;
    pthread_mutex_lock(&lock);
    count_asleep(s, false);
    if (s->handlers++ == 0 && !(restarts && s->wait->restarts)) {
        deliver_all();
        this_thread.depth = s->depth;
        if (s->result == NIPPERSAGE_PARKED) leave(s);
        this_thread.depth = depth;
    }
    pthread_mutex_unlock(&lock);
}

void end_handler_in(void *sleeper, long unused) {
    struct sleeper *s = sleeper;
    QUIET;
    (void)unused;
    pthread_mutex_lock(&lock);
    s->handlers--;
    pthread_mutex_unlock(&lock);
}

/* ---- sleeping ---- */

/* Handlers run here, if there is a caller left for them. Whether the sleep took as long as it was to take at most;
   without `most` it has no end. The lock is not held meanwhile. */
static bool sleep_once(struct sleeper *s, const struct timespec *most, bool sleeps) {
    uint32_t seen = s->slept_on = atomic_load(&s->word);
    struct sleeper *before = this_thread.innermost;
    int quiet = this_thread.quiet, depth = this_thread.depth, awake = threads - asleep;
    bool is_over = false;
    pthread_mutex_unlock(&lock);
    if (sleeps && !s->awaits_children) mark_down(s->seat);
    if (sleeps && awake > 0) tell_watcher(awake);
    if (depth + 1 < MOST_DEPTH) {
        this_thread.innermost = s;
        this_thread.depth = depth + 1;
        atomic_signal_fence(memory_order_seq_cst);
        this_thread.quiet = 0;
        atomic_signal_fence(memory_order_seq_cst);
        let_handlers_run();
    } else {
        end_if_killed();
    }
    if (sleeps && s->awaits_children) {
        sleep_with_children(most);
    } else if (sleeps) {
        is_over = next_syscall()(SYS_futex, &s->word, FUTEX_WAIT | FUTEX_PRIVATE_FLAG, seen, most, NULL, 0) != 0 &&
                  errno == ETIMEDOUT;
    }
    atomic_signal_fence(memory_order_seq_cst);
    this_thread.quiet = quiet;
    atomic_signal_fence(memory_order_seq_cst);
    this_thread.depth = depth;
    this_thread.innermost = before;
    pthread_mutex_lock(&lock);
    return is_over;
}

/* A thread that a signal was sent to is awake, or it waits for a lock on the way to its handler, and is disturbed. */
static bool is_undisturbed(const struct sleeper *s) {
    return is_thread_asleep(s->thread) && atomic_load(&s->word) == s->slept_on;
}

/* Whether nothing but the clock can end a wait. Where there are handlers, all threads but this one have to sleep in the
   real kernel, too. */
enum stillness { GOES_ON, PERHAPS_STILL, STILL };

static enum stillness how_still(const struct sleeper *me) {
    if (asleep < threads) return GOES_ON;
    if (!has_handlers()) return STILL;
    for (const struct sleeper *s = sleepers; s; s = s->next)
        if (s->is_asleep && s != me && !is_undisturbed(s)) return PERHAPS_STILL;
    return this_thread.is_held_back ? PERHAPS_STILL : STILL;
}

/* Moves the clock to the next moment at which something happens. Whether there is one. */
static bool go_on(void) {
    uint64_t moment;
    if (!next_moment(&moment)) return false;
    bring_clock_to(moment);
    return true;
}

/* Whether a real signal may end a wait. */
static bool may_be_signalled(void) {
    if (has_handlers()) return true;
    for (const struct sleeper *s = sleepers; s; s = s->next)
        if (s->wait->awaits_signal) return true;
    return false;
}

/* While there are children, and all threads sleep: moves what they have done, or the clock if it may go on, or sleeps
   until they do something. Whether that was of use. */
static bool await_children(struct sleeper *me) {
    struct timespec a_while = {0, 1000000};
    uint64_t moment, now = moment_now();
    bool has_moment = next_moment(&moment);
    if (move_in_wait()) return true;
    if (has_moment && may_go_to(moment)) return false;
    if (has_moment && moment > now && moment - now < MILLISECOND) a_while = timespec_of(moment - now);
    me->awaits_children = true;
    sleep_once(me, &a_while, true);
    me->awaits_children = false;
    return true;
}

/* Sleeps until there is news, or moves the clock if nothing but it brings news. */
static void await_news(struct sleeper *me, bool *has_waited) {
    static const struct timespec moment = {0, 200000};
    struct timespec patience = timespec_of(settings()->patience * MILLISECOND);
    enum stillness still = how_still(me);
    if (still == GOES_ON) {
        sleep_once(me, NULL, true);
    } else if (still == PERHAPS_STILL) {
        sleep_once(me, &moment, true);
    } else if (!(has_children() && await_children(me)) && !go_on()) {
        if (*has_waited || !may_be_signalled()) {
            me->result = ENDLESS;
        } else {
            *has_waited = sleep_once(me, &patience, true);
            return;
        }
    }
    *has_waited = false;
}

static void sleep_until_answered(struct sleeper *me) {
    bool has_waited = false;
    while (me->result == NIPPERSAGE_PARKED) {
        deliver_all();
        count_asleep(me, false);
        if (me->result != NIPPERSAGE_PARKED) return;
        if (is_outside) {
            me->result = -EINTR; /* a handler made a child in it */
        } else if (this_thread.is_held_back) {
            sleep_once(me, NULL, false);
        } else {
            count_asleep(me, true);
            await_news(me, &has_waited);
        }
    }
    count_asleep(me, false);
}

static void link_last(struct sleeper *s) {
    struct sleeper **link = &sleepers;
    while (*link) link = &(*link)->next;
    *link = s;
    atomic_fetch_add(&count, 1);
}

static void unlink_sleeper(const struct sleeper *s) {
    struct sleeper **link = &sleepers;
    while (*link != s) link = &(*link)->next;
    *link = s->next;
    atomic_fetch_sub(&count, 1);
}

/* ---- jumps ---- */

/* Ends the innermost wait of this thread. An instance that was made for it goes, too. */
static void leave_innermost(struct sleeper *s) {
    bool is_made_for_it = !s->wait->place && s->wait->instance != sleeping_instance();
    this_thread.depth = s->depth;
    this_thread.innermost = s->outer;
    pthread_mutex_lock(&lock);
    if (s->result == NIPPERSAGE_PARKED) leave(s);
    unlink_sleeper(s);
    pthread_mutex_unlock(&lock);
    if (is_made_for_it) end_own(s->wait->instance);
}

/* The frames of what is left stay as they are until the jump itself. */
void leave_waits_below(uintptr_t address) {
    if (is_outside) return;
    QUIET;
    while (this_thread.innermost && is_left(this_thread.innermost->place, address))
        leave_innermost(this_thread.innermost);
}

/* ---- a program that is never idle ---- */

/* So many waits in a row that find something, at one moment, take a millisecond, as let_clock_go_on has it. Under the
   lock; whether it was the last one of them. */
static bool count_busy(int found) {
    static uint64_t last;
    static uint64_t times;
    uint64_t now, most = settings()->busy_waits;
    if (found <= 0 || most == 0) return false;
    now = moment_now();
    times = now == last ? times + 1 : 1;
    last = now;
    if (times < most) return false;
    times = 0;
    return true;
}

/* ---- waits ---- */

/* Nothing can end the wait of any thread: the program ends, and says so once. */
static _Noreturn void end_endless(const char *call) {
    static atomic_flag is_told = ATOMIC_FLAG_INIT;
    if (atomic_flag_test_and_set(&is_told))
        for (;;) next_syscall()(SYS_pause);
    say("%s waits for ever: every thread waits, and no time ends a wait; status %d", call, STATUS_ENDLESS);
    fflush(NULL);
    _exit(STATUS_ENDLESS);
}

int wait_at(const struct wait *wait) {
    struct sleeper me = {.wait = wait, .end = NEVER, .thread = next_syscall()(SYS_gettid)};
    bool is_busy, has_slept;
    QUIET;
    me.caller = self().caller;
    me.seat = this_thread.seat;
    me.outer = this_thread.innermost;
    me.depth = this_thread.depth;
    me.place = place_of_call(&me);
    if (wait->timeout >= 0) me.end = moment_now() + (uint64_t)wait->timeout;
    if (has_children()) {
        look_if_busy();
        note_taken();
        if (!is_partly_asleep() && !has_timed_waits()) begin_pace();
    }
    pthread_mutex_lock(&lock);
    me.result = park(&me);
    has_slept = me.result == NIPPERSAGE_PARKED;
    if (has_slept) {
        link_last(&me);
        sleep_until_answered(&me);
        unlink_sleeper(&me);
    }
    is_busy = count_busy(me.result);
    pthread_mutex_unlock(&lock);
    if (has_slept && has_children()) pay_at_answer();
    if (is_busy) let_clock_go_on();
    if (me.result == ENDLESS) end_endless(wait->call);
    return me.result;
}

/* ---- threads that take part ---- */

int count_awake(unsigned long *woken_so_far) {
    int awake;
    QUIET;
    pthread_mutex_lock(&lock);
    awake = threads - asleep;
    *woken_so_far = woken;
    pthread_mutex_unlock(&lock);
    return awake;
}

/* Once one ends, the others may be those that are to move the clock. */
void count_threads(int more) {
    QUIET;
    pthread_mutex_lock(&lock);
    threads += more;
    if (more > 0) woken++; /* while one begins to sleep, as many are awake as before: a look has to tell that */
    for (struct sleeper *s = sleepers; s && more < 0 && asleep >= threads; s = s->next)
        if (s->is_asleep) {
            wake(s);
            break;
        }
    pthread_mutex_unlock(&lock);
}
