/* Threads. Those that take part are counted, and while all of them sleep in simulated waits, the last one moves the
   clock: sleepers.c. A thread may also sleep in the real kernel, as in pthread_cond_wait; then nobody would move the
   clock. So a thread of the shim's own, the watcher, looks whether all others sleep, and moves it for them. It looks when
   one of them begins to sleep, and each millisecond of real time. */
#include "preload.h"

#include <dirent.h>
#include <limits.h>
#include <linux/futex.h>
#include <pthread.h>
#include <semaphore.h>
#include <signal.h>
#include <stdio.h>
#include <stdlib.h>
#include <sys/prctl.h>
#include <sys/syscall.h>

FORWARD(pthread_create)
FORWARD(clock_gettime)
FORWARD(nanosleep)
FORWARD(sigtimedwait)
FORWARD(syscall)

static pthread_key_t counted;
static pthread_once_t once = PTHREAD_ONCE_INIT, once_watched = PTHREAD_ONCE_INIT;
static atomic_bool is_watching;

enum { MORE = 20 * MILLISECOND, SLACK = 50 };
/* So much longer than it says a wait with a time lasts at most, whether the others can go on or not. */
#define LAST_RESORT (60 * (int64_t)SECOND)
/* So many turns of the watcher, each of a millisecond of real time. */
enum { A_SECOND = 1000 };
/* So long has a thread to have run that computes, and is not kept from running by a busy machine. */
enum { A_WHILE = SECOND / 10 };

static pthread_mutex_t timed_lock = PTHREAD_MUTEX_INITIALIZER;
static struct timed *all_timed;
static atomic_int timed_count;

static int64_t real_now(void) {
    struct timespec now;
    next_clock_gettime()(CLOCK_MONOTONIC, &now);
    return units_of(&now);
}

/* ---- moments ---- */

/* How late waits on locks may end. Linux delays a wait by 50 microseconds by default, and many threads besides take turns
   on few processors. Here so many would take turns at each moment at which anything happens, however soon it is. */
static uint64_t slack(void) {
    int count = atomic_load(&timed_count);
    return count < MILLISECOND / SLACK ? (uint64_t)count * SLACK : (uint64_t)MILLISECOND;
}

/* The ends of waits with a time: the first one, and the last one of those that come within the slack after it. */
struct ends {
    uint64_t first, last;
};

static bool find_ends(struct ends *ends) {
    uint64_t late = slack();
    *ends = (struct ends){UINT64_MAX, 0};
    if (late == 0) return false;
    pthread_mutex_lock(&timed_lock);
    for (const struct timed *timed = all_timed; timed; timed = timed->next)
        if (!timed->lasts_on && (uint64_t)timed->end < ends->first) ends->first = (uint64_t)timed->end;
    for (const struct timed *timed = all_timed; timed; timed = timed->next) {
        uint64_t end = (uint64_t)timed->end;
        if (!timed->lasts_on && end - ends->first <= late && end > ends->last && end <= LAST_MOMENT) ends->last = end;
    }
    pthread_mutex_unlock(&timed_lock);
    return ends->last > 0;
}

/* The next moment at which something else happens. */
static bool next_event(uint64_t *moment) {
    struct timespec next;
    uint64_t alarm;
    bool has_one = nippersage_next_moment(the_kernel(), &next) == 1;
    if (has_one) *moment = (uint64_t)units_of(&next);
    if (!next_alarm(&alarm) || (has_one && *moment <= alarm)) return has_one;
    *moment = alarm;
    return true;
}

/* What else happens until waits on locks have to end comes before their ends, and they end together. */
bool next_moment(uint64_t *moment) {
    uint64_t event = UINT64_MAX;
    struct ends ends;
    QUIET;
    bool has_event = next_event(&event), has_end = find_ends(&ends);
    if (!has_event && !has_end) return false;
    *moment = !has_end || (has_event && event <= ends.first + slack()) ? event : ends.last;
    return true;
}

/* How far the clock may go while threads wait for what is outside: as far as real time has gone since then, and not past
   the end of such a wait. Else what is outside would come too late for each of them. */
static uint64_t outside_limit(int *waits) {
    uint64_t limit = UINT64_MAX;
    int64_t now = real_now();
    *waits = 0;
    if (atomic_load(&timed_count) == 0) return limit;
    pthread_mutex_lock(&timed_lock);
    for (const struct timed *timed = all_timed; timed; timed = timed->next) {
        uint64_t there = timed->began + (uint64_t)(now - timed->began_really);
        if (!timed->is_outside || (timed->lasts_on && there >= (uint64_t)timed->end)) continue;
        if (there > (uint64_t)timed->end) there = (uint64_t)timed->end;
        if (there < limit) limit = there;
        ++*waits;
    }
    pthread_mutex_unlock(&timed_lock);
    return limit;
}

/* ---- the watcher ---- */

/* It sleeps until somebody pokes it, or a millisecond. */
static _Atomic uint32_t pokes;
static atomic_bool is_idle;
static atomic_int resting = 1; /* so many threads were awake, or slept elsewhere, when it moved the clock last */

void tell_watcher(int awake) {
    if (!atomic_load(&is_watching) || awake > atomic_load(&resting)) return;
    atomic_fetch_add(&pokes, 1);
    if (atomic_exchange(&is_idle, false))
        next_syscall()(SYS_futex, &pokes, FUTEX_WAKE | FUTEX_PRIVATE_FLAG, 1, NULL, NULL, 0);
}

/* Whether all threads but this one sleep, by the list that the real kernel has of them. */
static bool all_sleep(void) {
    DIR *tasks = opendir("/proc/self/task");
    long own = syscall(SYS_gettid);
    struct dirent *entry;
    bool so = tasks != NULL;
    while (so && (entry = readdir(tasks))) {
        long thread = strtol(entry->d_name, NULL, 10);
        if (thread > 0 && thread != own) so = is_thread_asleep(thread);
    }
    if (tasks) closedir(tasks);
    return so;
}

/* Where no time wakes anyone, a real descriptor may. So it is only said, and after a second. */
static void say_endless(int turns) {
    if (turns == A_SECOND && is_anyone_waiting() && !has_children())
        say("nothing has happened for a second: every thread sleeps, and no time ends a simulated wait");
}

/* Moves the clock to the next moment, if there is one to which it may go. If it may so later, *pause is how long it is
   until then. */
static bool move_clock(int64_t *pause) {
    uint64_t moment, limit;
    int waits;
    QUIET;
    if (move_bytes()) {
        pay_at_answer();
        return true;
    }
    if (!next_moment(&moment)) return false;
    limit = outside_limit(&waits);
    if (moment > limit) {
        *pause = moment - limit < MILLISECOND ? (int64_t)(moment - limit) : MILLISECOND;
        return false;
    }
    if (!may_go_to(moment)) return false;
    bring_clock_to(moment);
    return true;
}

/* What the watcher knows from turn to turn. */
struct watch {
    int64_t last_turn;    /* in real time */
    unsigned long before; /* calls until then */
    int quiet, still;     /* so many turns without a call, and so many in which all slept, too */
    bool has_noted;       /* how long each thread had run in the middle of the quiet turns */
    int64_t noted;        /* when it was noted for waits with a time, in real time */
    uint32_t pokes;
    int64_t pause; /* so long it sleeps next, whatever happens; 0 is until a poke */
};

/* A thread that computes for a second without a call may wait for another one that sleeps. One that a busy machine
   doesn't let run isn't: so in the second half of that time each has to have run for a while. */
static bool computes(struct watch *watch) {
    if (watch->quiet < A_SECOND / 2) {
        watch->has_noted = false;
    } else if (!watch->has_noted) {
        watch->has_noted = note_runs(OF_A_SECOND);
    }
    return watch->quiet > A_SECOND && watch->has_noted && have_others_run(OF_A_SECOND, A_WHILE);
}

/* ---- waits with a time beside threads that go on ---- */

/* The wait with a time that is due first, of those that are to end yet: when it began and is due, in real time, and for
   how long each of the others has to have run in the second half of that time. */
struct first_due {
    int64_t began, due;
    uint64_t least;
};

static bool find_first_due(struct first_due *first) {
    int64_t now = (int64_t)moment_now();
    *first = (struct first_due){.due = INT64_MAX};
    if (atomic_load(&timed_count) == 0) return false;
    pthread_mutex_lock(&timed_lock);
    for (const struct timed *timed = all_timed; timed; timed = timed->next)
        if (timed->due < first->due && timed->end > now)
            *first = (struct first_due){timed->began_really, timed->due, (uint64_t)timed->end - timed->began};
    pthread_mutex_unlock(&timed_lock);
    first->least = first->least / 2 < A_WHILE ? first->least / 2 : A_WHILE;
    return first->due != INT64_MAX;
}

/* Others have gone on for as long as a wait was to last, and some more. One of them that has had no processor, because
   the machine is busy, is perhaps the one that is to let it: that one has to run first. */
static bool is_overdue(struct watch *watch) {
    struct first_due first;
    int64_t now = real_now();
    bool is_noted;
    if (!find_first_due(&first)) return false;
    is_noted = watch->noted >= first.began;
    if (!is_noted && now >= first.began + (first.due - first.began) / 2 && note_runs(OF_A_WAIT)) watch->noted = now;
    return is_noted && now >= first.due && have_others_run(OF_A_WAIT, first.least);
}

/* What is to happen before its end happens before it, each at its moment. */
static bool end_overdue(struct watch *watch) {
    uint64_t moment;
    QUIET;
    if (!is_overdue(watch) || !next_moment(&moment)) return false;
    bring_clock_to(moment);
    return true;
}

/* All sleep, and only time or something outside can wake them: so they did a millisecond ago, and made no call in
   between. While a thread computes for long, time goes on, too. */
static bool take_turn(struct watch *watch, struct look look, int64_t *pause) {
    enum rest rest = look.rest;
    bool moves;
    if (look.is_partial) rest = all_sleep() ? OUTSIDE : AWAKE;
    watch->last_turn = real_now();
    watch->quiet = calls() == watch->before ? watch->quiet + 1 : 0;
    watch->still = watch->quiet > 0 && rest != AWAKE ? watch->still + 1 : 0;
    end_timed_waits(moment_now());
    moves = ((computes(watch) || watch->still > 1) && move_clock(pause)) || end_overdue(watch);
    if (moves) {
        watch->quiet = watch->still = 0;
    } else {
        say_endless(watch->still);
    }
    watch->before = calls();
    return moves;
}

/* Moves the clock if all sleep, and nothing but time can wake them. */
static bool look_and_move(struct watch *watch, int64_t *pause) {
    struct look look = look_at_others(NULL);
    int waits;
    outside_limit(&waits);
    if (look.rest != AWAKE && look.outside <= waits && move_clock(pause)) {
        atomic_store(&resting, look.awake);
        watch->quiet = watch->still = 0;
        watch->before = calls();
        return true;
    }
    return *pause == 0 && real_now() - watch->last_turn >= MILLISECOND && take_turn(watch, look, pause);
}

/* Whether somebody poked it. */
static bool await_poke(struct watch *watch) {
    struct timespec most = timespec_of((uint64_t)(watch->pause > 0 ? watch->pause : MILLISECOND));
    uint32_t now;
    bool is_poked;
    if (watch->pause > 0) {
        next_nanosleep()(&most, NULL);
    } else {
        atomic_store(&is_idle, true);
        next_syscall()(SYS_futex, &pokes, FUTEX_WAIT | FUTEX_PRIVATE_FLAG, watch->pokes, &most, NULL, 0);
        atomic_store(&is_idle, false);
    }
    now = atomic_load(&pokes);
    is_poked = now != watch->pokes;
    watch->pokes = now;
    return is_poked;
}

/* The same where there are children: then it waits for them, too. */
static bool await_turn(struct watch *watch) {
    static const struct timespec a_while = {0, 1000000};
    uint64_t passed;
    if (!spend_a_turn(&a_while, &passed)) return await_poke(watch);
    if (!are_all_asleep()) pass_time(passed);
    return false;
}

/* After a poke it looks again and again, but less and less often, for who poked is perhaps not yet asleep. */
static _Noreturn void *watch(void *nothing) {
    enum { FIRST_PAUSE = 20, LAST_PAUSE = 640 };
    struct watch watch = {.last_turn = real_now()};
    (void)nothing;
    this_thread.is_counted = true; /* it takes no part */
    next_syscall()(SYS_prctl, PR_SET_TIMERSLACK, UNIT, 0, 0, 0);
    for (;;) {
        bool is_poked = await_turn(&watch);
        int64_t until = 0;
        if (look_and_move(&watch, &until)) {
            watch.pause = 0;
        } else if (until > 0) {
            watch.pause = until;
        } else if (watch.pause > 0) {
            watch.pause = watch.pause < LAST_PAUSE ? 2 * watch.pause : 0;
        } else {
            watch.pause = is_poked ? FIRST_PAUSE : 0;
        }
    }
}

/* ---- threads that ask in vain ---- */

/* While another thread computes, the clock stays; but it may compute until this one sees its clock go on. So after a
   second at one moment, it goes on as real time does. */
static uint64_t step_beside_others(uint64_t now) {
    static pthread_mutex_t lock = PTHREAD_MUTEX_INITIALIZER;
    static uint64_t from = 1, to; /* the moments of the last step, or of none */
    static int64_t since;         /* in real time */
    static bool is_over;
    int64_t real = real_now(), passed;
    uint64_t step = 0;
    pthread_mutex_lock(&lock);
    if (now < from || now > to) {
        from = to = now;
        since = real;
        is_over = false;
    }
    passed = real - since;
    if (is_over || passed >= SECOND) {
        is_over = true;
        since = real;
        step = passed < MILLISECOND ? (uint64_t)passed : MILLISECOND;
        from = now;
        to = now + step;
    }
    pthread_mutex_unlock(&lock);
    return step;
}

uint64_t step_for_asking(void) {
    uint64_t now, limit;
    int waits;
    if (!atomic_load(&is_watching)) return MILLISECOND;
    now = moment_now();
    mark_asking(now);
    if (look_at_others(&now).rest == AWAKE) return step_beside_others(now);
    limit = outside_limit(&waits);
    if (limit <= now) return 0;
    return limit - now < MILLISECOND ? limit - now : MILLISECOND;
}

/* ---- threads that take part ---- */

/* The last of a thread. With the last thread the program ends, though the watcher is there still. */
static void stop_counting(void *nothing) {
    unsigned long woken;
    (void)nothing;
    if (is_outside) return;
    count_threads(-1);
    leave_seat();
    if (count_awake(&woken) == 0 && !is_anyone_waiting()) exit(0);
    tell_watcher(0);
}

static void count_this_thread(void) {
    this_thread.is_counted = true;
    take_seat();
    pthread_setspecific(counted, &this_thread);
}

/* Signals go to the program's own threads. */
static void start_watching(void) {
    sigset_t all, before;
    pthread_t watcher;
    sigfillset(&all);
    pthread_sigmask(SIG_SETMASK, &all, &before);
    if (next_pthread_create()(&watcher, NULL, (void *(*)(void *))watch, NULL) == 0) {
        pthread_detach(watcher);
        atomic_store(&is_watching, true);
    } else {
        say("no thread can be made that moves the clock");
    }
    pthread_sigmask(SIG_SETMASK, &before, NULL);
}

void watch_threads(void) { pthread_once(&once_watched, start_watching); }

/* The first thread is counted from the start. */
static void start_counting(void) {
    if (pthread_key_create(&counted, stop_counting) != 0) abort();
    if (this_thread.is_counted) count_this_thread();
    watch_threads();
}

/* One that pthread_create didn't make is counted from its first call on. The first one is counted already, though the
   constructor of another library may call before this one's. */
void join_threads(void) {
    if (this_thread.is_counted) return;
    pthread_once(&once, start_counting);
    if (next_syscall()(SYS_gettid) != getpid()) count_threads(1);
    count_this_thread();
}

struct thread {
    void *(*run)(void *);
    void *argument;
    size_t stack;
};

static struct thread *keep_thread(struct thread thread) {
    struct thread *kept;
    QUIET;
    self();
    kept = malloc(sizeof *kept);
    if (kept) *kept = thread;
    return kept;
}

static struct thread take_thread(struct thread *kept) {
    struct thread thread = *kept;
    QUIET;
    count_this_thread();
    free(kept);
    return thread;
}

static void *run_counted(void *kept) {
    struct thread thread = take_thread(kept);
    learn_stack(thread.stack);
    return thread.run(thread.argument);
}

int pthread_create(pthread_t *made, const pthread_attr_t *attributes, void *(*run)(void *), void *argument) {
    struct thread *thread;
    int error;
    HAND_ON(next_pthread_create()(made, attributes, run, argument));
    thread = keep_thread((struct thread){run, argument, stack_of(attributes)});
    if (!thread) return EAGAIN;
    pthread_once(&once, start_counting);
    count_threads(1);
    error = next_pthread_create()(made, attributes, run_counted, thread);
    if (error != 0) {
        count_threads(-1);
        take_thread(thread);
    }
    return error;
}

/* ---- waits with a time ---- */

enum { SLICE = 20 * MILLISECOND };

/* Which clock a time is by the time itself says: one begins at START, the other at EPOCH_SECONDS more. */
static bool is_a_day(const struct timespec *time) { return time->tv_sec >= EPOCH_SECONDS / 2; }

/* So many UNITs of real time from now end the wait's next sleep; none do if its end has come by now. */
static void sleep_at_most(struct timed *timed, int64_t units) {
    struct timespec until, more = timespec_of((uint64_t)units);
    next_clock_gettime()(timed->clock, &until);
    until.tv_sec += more.tv_sec + (until.tv_nsec + more.tv_nsec) / 1000000000;
    until.tv_nsec = (until.tv_nsec + more.tv_nsec) % 1000000000;
    __atomic_store_n(&timed->until.tv_nsec, until.tv_nsec, __ATOMIC_SEQ_CST);
    __atomic_store_n(&timed->until.tv_sec, until.tv_sec, __ATOMIC_SEQ_CST);
    if ((int64_t)moment_now() >= timed->end) __atomic_store_n(&timed->until.tv_sec, 0, __ATOMIC_SEQ_CST);
}

/* Its thread sleeps on one of the words, and looks at `until` again when it is woken. So it wakes up and finds that its
   time is over. Another thread that sleeps on the same words finds that it has to sleep on. */
static void end_sleep(struct timed *timed) {
    __atomic_store_n(&timed->until.tv_sec, 0, __ATOMIC_SEQ_CST);
    for (uint32_t *word = timed->words; word < timed->words + timed->word_count; word++) {
        next_syscall()(SYS_futex, word, FUTEX_WAKE | FUTEX_PRIVATE_FLAG, INT_MAX, NULL, NULL, 0);
        next_syscall()(SYS_futex, word, FUTEX_WAKE, INT_MAX, NULL, NULL, 0);
    }
}

static bool is_over(const struct timed *timed) {
    return __atomic_load_n(&timed->until.tv_sec, __ATOMIC_SEQ_CST) == 0;
}

void end_timed_waits(uint64_t moment) {
    int saved = errno;
    uint64_t next;
    if (atomic_load(&timed_count) == 0) return;
    QUIET;
    if (!next_moment(&next) || next > moment) return; /* something else comes first, or nothing ends by then */
    pthread_mutex_lock(&timed_lock);
    for (struct timed *timed = all_timed; timed; timed = timed->next)
        if ((uint64_t)timed->end <= moment && !timed->is_outside) end_sleep(timed);
    pthread_mutex_unlock(&timed_lock);
    errno = saved;
}

bool has_timed_waits(void) { return atomic_load(&timed_count) > 0; }

static void link_timed(struct timed *timed) {
    if (has_children() && !is_partly_asleep() && !has_timed_waits()) begin_pace();
    QUIET;
    self();
    timed->place = place_of_call(timed);
    timed->outer = this_thread.timed;
    this_thread.timed = timed;
    pthread_mutex_lock(&timed_lock);
    timed->next = all_timed;
    all_timed = timed;
    atomic_fetch_add(&timed_count, 1);
    pthread_mutex_unlock(&timed_lock);
}

/* The longest sleep. A wait on a condition variable sleeps once, or it could miss a signal in between. Another one looks
   at the clock again after a while, for there may be locks that nobody can wake. */
static int64_t slice_of(const struct timed *timed) {
    if (timed->is_condition) return timed->left;
    return timed->words ? SLICE : MILLISECOND;
}

/* One that nobody can end, for want of other threads, doesn't sleep. */
void begin_timed_on(struct timed *timed, const struct timespec *time, const void *object, size_t size,
                    bool is_condition) {
    int64_t now = (int64_t)moment_now(), end = units_of(time), slice;
    *timed = (struct timed){.end = end, .until = *time, .is_condition = is_condition};
    timed->clock = is_a_day(time) ? CLOCK_REALTIME : CLOCK_MONOTONIC;
    timed->words = (uint32_t *)(uintptr_t)object;
    timed->word_count = object ? size / sizeof *timed->words : 0;
    if (end < 0) return;
    if (is_a_day(time)) end -= EPOCH;
    if (end < 0) end = 0;
    timed->end = end;
    timed->began = (uint64_t)now;
    timed->began_really = real_now();
    timed->due = end - now < (int64_t)LAST_MOMENT ? timed->began_really + end - now + MORE : INT64_MAX;
    timed->left = end <= now || !atomic_load(&is_watching) ? 0 : end - now + LAST_RESORT;
    slice = slice_of(timed);
    link_timed(timed);
    sleep_at_most(timed, timed->left < slice ? timed->left : slice);
    if (timed->left > 0) tell_watcher(0);
}

/* One on a condition variable, or on what nobody can wake. */
static void begin_timed(struct timed *timed, const struct timespec *time, pthread_cond_t *changed) {
    begin_timed_on(timed, time, changed, sizeof *changed, changed != NULL);
}

/* The error of a wait that answered this one: ETIMEDOUT if it is over, SLEEP_ON if it is to go on. */
int error_of_timed(struct timed *timed, int error) {
    int64_t slice = slice_of(timed);
    if (timed->end < 0 || error != ETIMEDOUT || (int64_t)moment_now() >= timed->end) return error;
    timed->left -= slice;
    if (timed->left > 0) {
        sleep_at_most(timed, timed->left < slice ? timed->left : slice);
        return SLEEP_ON;
    }
    bring_clock_to((uint64_t)timed->end);
    return ETIMEDOUT;
}

void end_timed(const struct timed *timed) {
    struct timed **link = &all_timed;
    int saved = errno;
    if (is_outside) return; /* a handler made a child in the wait */
    QUIET;
    if (timed->end < 0) return;
    if (this_thread.timed == timed) this_thread.timed = timed->outer;
    pthread_mutex_lock(&timed_lock);
    while (*link && *link != timed) link = &(*link)->next;
    if (*link) {
        *link = timed->next;
        atomic_fetch_sub(&timed_count, 1);
    }
    pthread_mutex_unlock(&timed_lock);
    errno = saved;
}

void end_cancelled(void *timed) { end_timed(timed); }

void leave_timed_below(uintptr_t address) {
    if (is_outside) return;
    while (this_thread.timed && is_left(this_thread.timed->place, address)) end_timed(this_thread.timed);
}

/* ---- waits with a time for what is outside ---- */

void begin_outside(struct timed *timed, int64_t units, bool lasts_on) {
    *timed = (struct timed){.began = moment_now(), .began_really = real_now(), .is_outside = true, .lasts_on = lasts_on};
    timed->clock = CLOCK_MONOTONIC;
    timed->due = INT64_MAX;
    timed->end = (int64_t)timed->began + units;
    if (!atomic_load(&is_watching)) return;
    link_timed(timed);
    tell_watcher(0);
}

/* Real time has passed, and nothing has come from outside. What is to happen until then by the simulated clock happens
   before it, unless others go on for a second more: on a busy machine they are late. */
static void await_end(struct timed *timed) {
    pthread_mutex_lock(&timed_lock);
    timed->is_outside = timed->lasts_on = false;
    timed->words = &timed->own_word;
    timed->word_count = 1;
    pthread_mutex_unlock(&timed_lock);
    sleep_at_most(timed, SECOND);
    tell_watcher(0);
    while ((int64_t)moment_now() < timed->end &&
           (next_syscall()(SYS_futex, &timed->own_word, FUTEX_WAIT_BITSET | FUTEX_PRIVATE_FLAG, 0, &timed->until, NULL,
                           FUTEX_BITSET_MATCH_ANY) == 0 ||
            errno != ETIMEDOUT))
        continue;
}

void end_outside(struct timed *timed, bool is_over) {
    int saved = errno;
    if (is_over && atomic_load(&is_watching)) await_end(timed);
    end_timed(timed);
    if (is_over) bring_clock_to((uint64_t)timed->end);
    errno = saved;
}

/* ---- waits with a time on locks ---- */

/* What a wait is on, for begin_timed_on. NULL is what nobody can wake. Of a semaphore only the count is ever slept on,
   and the bytes at its end are of no value at all. */
#define ON(object)                                                                           \
    (object), _Generic((object), sem_t *: 2 * sizeof(uint32_t), default: sizeof *(object)), \
        _Generic((object), pthread_cond_t *: true, default: false)

/* A wait of the C library until `time`, which answers an error number; on an object, or on NULL. */
#define TIMED(name, object, parameters, arguments, untimed)          \
    FORWARD(name)                                                    \
    int name parameters {                                            \
        struct timed timed;                                          \
        int error;                                                   \
        HAND_ON(next_##name() untimed);                              \
        begin_timed_on(&timed, time, ON(object));                    \
        do {                                                         \
            error = CANCELLABLE(&timed, next_##name() arguments);    \
            error = error_of_timed(&timed, error);                   \
        } while (error == SLEEP_ON);                                 \
        end_timed(&timed);                                           \
        return error;                                                \
    }

TIMED(pthread_cond_timedwait, changed,
      (pthread_cond_t *restrict changed, pthread_mutex_t *restrict lock, const struct timespec *restrict time),
      (changed, lock, &timed.until), (changed, lock, time))
TIMED(pthread_cond_clockwait, changed,
      (pthread_cond_t *restrict changed, pthread_mutex_t *restrict lock, clockid_t clock,
       const struct timespec *restrict time),
      (changed, lock, clock, &timed.until), (changed, lock, clock, time))
TIMED(pthread_mutex_timedlock, lock, (pthread_mutex_t *restrict lock, const struct timespec *restrict time),
      (lock, &timed.until), (lock, time))
TIMED(pthread_mutex_clocklock, lock,
      (pthread_mutex_t *restrict lock, clockid_t clock, const struct timespec *restrict time),
      (lock, clock, &timed.until), (lock, clock, time))

/* One that answers by errno. */
#define TIMED_BY_ERRNO_ON(name, type, object, parameters, arguments, untimed) \
    FORWARD(name)                                                             \
    type name parameters {                                                    \
        struct timed timed;                                                   \
        type status;                                                          \
        int error;                                                            \
        HAND_ON(next_##name() untimed);                                       \
        begin_timed_on(&timed, time, ON(object));                             \
        do {                                                                  \
            status = CANCELLABLE(&timed, next_##name() arguments);            \
            error = error_of_timed(&timed, status < 0 ? errno : 0);           \
        } while (status < 0 && error == SLEEP_ON);                            \
        end_timed(&timed);                                                    \
        if (status < 0) errno = error;                                        \
        return status;                                                        \
    }

TIMED_BY_ERRNO_ON(sem_timedwait, int, semaphore, (sem_t *restrict semaphore, const struct timespec *restrict time),
                  (semaphore, &timed.until), (semaphore, time))
TIMED_BY_ERRNO_ON(sem_clockwait, int, semaphore,
                  (sem_t *restrict semaphore, clockid_t clock, const struct timespec *restrict time),
                  (semaphore, clock, &timed.until), (semaphore, clock, time))

int wait_until(const struct timespec *day, int (*wait)(void *given, const struct timespec *until), void *given) {
    struct timed timed;
    int error;
    HAND_ON(wait(given, day));
    begin_timed(&timed, day, NULL);
    do {
        error = error_of_timed(&timed, CANCELLABLE(&timed, wait(given, &timed.until)));
    } while (error == SLEEP_ON);
    end_timed(&timed);
    return error;
}

/* One that is to last so many UNITs ends at this moment of CLOCK_MONOTONIC. */
static struct timespec end_of(int64_t units) {
    static const int64_t most = INT64_C(400000000) * SECOND; /* 12 years */
    return timespec_of(moment_now() + (uint64_t)(units < most ? units : most));
}

/* Until a moment waits FUTEX_WAIT_BITSET, as Rust's standard library does, and for so long FUTEX_WAIT, as that of C++
   does. Both are FUTEX_WAIT_BITSET here. */
long call_futex(const long given[6]) {
    const struct timespec *time = (const struct timespec *)given[3];
    int command = (int)given[1] & FUTEX_CMD_MASK;
    bool is_until = command == FUTEX_WAIT_BITSET, is_for = command == FUTEX_WAIT;
    long operation = is_until ? given[1] : FUTEX_WAIT_BITSET | (given[1] & FUTEX_PRIVATE_FLAG);
    long bits = is_until ? given[5] : (long)FUTEX_BITSET_MATCH_ANY, status;
    struct timespec end;
    struct timed timed;
    bool has_slept = false, has_changed = false;
    int error = 0;
    if (is_outside || !time || !READABLE(time) || !(is_until || (is_for && units_of(time) >= 0)))
        return next_syscall()(SYS_futex, given[0], given[1], given[2], given[3], given[4], given[5]);
    end = is_until ? *time : end_of(units_of(time));
    begin_timed_on(&timed, &end, (void *)given[0], sizeof(uint32_t), false);
    do {
        status = next_syscall()(SYS_futex, given[0], operation, given[2], &timed.until, given[4], bits);
        if (status < 0) error = errno == ETIMEDOUT ? error_of_timed(&timed, ETIMEDOUT) : errno;
        /* Who wakes it has changed the word, perhaps between two of its sleeps. */
        has_changed = status < 0 && error == EAGAIN && has_slept;
        has_slept = true;
        /* Woken by the watcher, it looks at the word and at the time once more. */
    } while (status < 0 ? error == SLEEP_ON : is_over(&timed));
    end_timed(&timed);
    if (has_changed) return 0;
    if (status < 0) errno = error;
    return status;
}

/* A signal that is blocked wakes nobody but who asks for it, so this asks each millisecond. */
int sigtimedwait(const sigset_t *restrict set, siginfo_t *restrict info, const struct timespec *restrict time) {
    struct timespec slice = {0, 0}, end;
    struct timed timed;
    int signal, error = 0;
    if (is_outside || !time || !READABLE(time) || units_of(time) < 0) return next_sigtimedwait()(set, info, time);
    end = end_of(units_of(time));
    begin_timed(&timed, &end, NULL);
    do {
        if (timed.left > 0) slice.tv_nsec = 1000000;
        signal = CANCELLABLE(&timed, next_sigtimedwait()(set, info, &slice));
        if (signal < 0) error = errno == EAGAIN ? error_of_timed(&timed, ETIMEDOUT) : errno;
    } while (signal < 0 && error == SLEEP_ON);
    end_timed(&timed);
    if (signal < 0) errno = error == ETIMEDOUT ? EAGAIN : error;
    return signal;
}
