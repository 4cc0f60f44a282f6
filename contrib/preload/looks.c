/* Who of the threads sleeps. Those that sleep in waits of the simulated kernel are counted: sleepers.c. What the others
   do is known to the real kernel only: a file in /proc tells in which call a thread sleeps, and a clock how long it has
   run. So nobody looks there for a thread that is counted, unless the program has handlers of signals.

   While somebody looks, no lock of the shim is held: who waits for one sleeps, too, as far as the real kernel knows. */
#include "children.h"

#include <pthread.h>
#include <stdio.h>
#include <stdlib.h>
#include <sys/syscall.h>

FORWARD(syscall)

/* A thread is counted as asleep under the lock of sleepers.c. It then gives that lock back, and wakes the one that waits
   for it. Until that is done, the one that waits seems to be at rest: so a look takes nobody for asleep who is FALLING. */
enum descent { UP, FALLING, DOWN };

/* A thread that takes part. It outlives its thread until a look finds that the real kernel has no such thread. */
struct seat {
    long thread;                  /* the real kernel's number */
    int file;                     /* its file in /proc that tells in which call it sleeps; looks only */
    const struct thread_state *of;
    bool has_left;                /* the thread is about to end */
    _Atomic enum descent descent; /* to its sleep in a wait of the simulated kernel */
    _Atomic uint64_t asked;       /* the moment at which it asked in vain for the last time */
    enum rest seen;               /* what the last look found that it did; looks only */
    uint64_t seen_run;            /* so long it had run until then */
    uint64_t noted_run[NOTES];    /* and until note_runs; looks only */
    struct seat *next;
};

/* What `file` is else: it wasn't asked for yet, and it is opened for each question. */
enum { NOT_YET = -1, EACH_TIME = -2, MOST_FILES = 512 };
static int files; /* that are open; looks only */

static pthread_mutex_t lock = PTHREAD_MUTEX_INITIALIZER;
static struct seat *seats;
static size_t seat_count;
static atomic_bool lacks_seats; /* there was no memory for one */
static atomic_ulong left_calls; /* of threads that have ended */

/* ---- the list ---- */

/* A number that the real kernel gives again is that of no thread before. */
static void forget_number(long thread) {
    for (struct seat *seat = seats; seat; seat = seat->next)
        if (seat->thread == thread) seat->thread = 0;
}

void take_seat(void) {
    struct seat *made;
    QUIET;
    if (this_thread.seat) return;
    made = calloc(1, sizeof *made);
    if (!made) {
        atomic_store(&lacks_seats, true); /* then the looks don't tell all, and the watcher asks of each thread */
        return;
    }
    made->thread = next_syscall()(SYS_gettid);
    made->of = &this_thread;
    made->file = NOT_YET;
    pthread_mutex_lock(&lock);
    forget_number(made->thread);
    made->next = seats;
    seats = made;
    seat_count++;
    this_thread.seat = made;
    pthread_mutex_unlock(&lock);
}

void leave_seat(void) {
    QUIET;
    if (!this_thread.seat) return;
    pthread_mutex_lock(&lock);
    atomic_fetch_add(&left_calls, this_thread.calls);
    this_thread.seat->has_left = true;
    this_thread.seat->of = NULL;
    this_thread.seat = NULL;
    pthread_mutex_unlock(&lock);
}

void mark_asleep(struct seat *seat, bool is_asleep) {
    if (seat) atomic_store(&seat->descent, is_asleep ? FALLING : UP);
}

/* Unless it was woken meanwhile. */
void mark_down(struct seat *seat) {
    enum descent expected = FALLING;
    if (seat) atomic_compare_exchange_strong(&seat->descent, &expected, DOWN);
}

void mark_asking(uint64_t moment) {
    if (this_thread.seat) atomic_store(&this_thread.seat->asked, moment);
}

unsigned long calls(void) {
    unsigned long sum = atomic_load(&left_calls);
    pthread_mutex_lock(&lock);
    for (const struct seat *seat = seats; seat; seat = seat->next)
        if (seat->of) sum += atomic_load_explicit(&seat->of->calls, memory_order_relaxed);
    pthread_mutex_unlock(&lock);
    return sum;
}

/* ---- what the real kernel tells of a thread ---- */

/* The beginning of a thread's file, or minus an error number. */
static ssize_t read_of(long thread, const char *name, char *line, size_t room) {
    char path[64];
    ssize_t size;
    int saved = errno, error;
    long fd;
    snprintf(path, sizeof path, "/proc/self/task/%ld/%s", thread, name);
    fd = next_syscall()(SYS_openat, AT_FDCWD, path, O_RDONLY | O_CLOEXEC);
    size = fd < 0 ? -1 : (ssize_t)next_syscall()(SYS_read, fd, line, room - 1);
    error = errno;
    if (fd >= 0) next_syscall()(SYS_close, fd);
    errno = saved;
    if (size < 0) return -error;
    line[size] = '\0';
    return size;
}

/* The letter of its state, by its line "42 (name) S ..". One that can't be read has ended. */
static char state_of(long thread) {
    char line[512];
    const char *end;
    if (read_of(thread, "stat", line, sizeof line) <= 0) return 'X';
    end = strrchr(line, ')');
    return end && end[1] == ' ' ? end[2] : '?';
}

bool is_thread_asleep(long thread) {
    char state = state_of(thread);
    return state == 'S' || state == 'Z' || state == 'X';
}

/* Under valgrind threads take turns: each that waits for its turn seems to sleep for good. */
static bool tells_calls(void) {
    static atomic_int known; /* 1 if so, 2 if not */
    const char *before = variable("LD_PRELOAD");
    char line[128];
    if (atomic_load(&known)) return atomic_load(&known) == 1;
    if ((before && strstr(before, "vgpreload")) || read_of(next_syscall()(SYS_gettid), "syscall", line, sizeof line) <= 0)
        atomic_store(&known, 2);
    else
        atomic_store(&known, 1);
    return atomic_load(&known) == 1;
}

/* The real kernel has no such thread any more, or, of the first one, no more than its number. */
static bool is_gone(long thread) {
    char line[128], state = state_of(thread);
    return state == 'Z' || (state == 'X' && read_of(next_syscall()(SYS_gettid), "stat", line, sizeof line) > 0);
}

/* To open the file of a thread takes longer than to read it. So some stay open, above all numbers of the program, if
   children have enough of those all the same. */
static int open_file(long thread) {
    enum { FOR_CHILDREN = 1024 };
    struct rlimit before;
    char path[64];
    int fd = EACH_TIME;
    if (files == MOST_FILES || !raise_real_limit(&before)) return EACH_TIME;
    snprintf(path, sizeof path, "/proc/self/task/%ld/syscall", thread);
    if (before.rlim_max >= (rlim_t)(FIRST + NUMBERS + MOST_FILES + FOR_CHILDREN))
        fd = lift((int)RAW(SYS_openat, AT_FDCWD, path, O_RDONLY | O_CLOEXEC));
    lower_real_limit(&before);
    if (fd < 0) return EACH_TIME;
    files++;
    return fd;
}

static ssize_t read_call_of(struct seat *seat, char *line, size_t room) {
    long size;
    if (seat->file == NOT_YET) seat->file = open_file(seat->thread);
    if (seat->file < 0) return read_of(seat->thread, "syscall", line, room);
    size = RAW(SYS_pread64, seat->file, line, room - 1, 0);
    if (size >= 0) line[size] = '\0';
    return size;
}

/* A lock, and what only a signal ends, are at rest: no time of the real kernel and nothing outside ends them. Another
   call in which a thread waits and no signal may wake it (D) is at work, as where the table of descriptors grows. */
static enum rest rest_of(struct seat *seat) {
    char line[128], *end;
    long call;
    if (!tells_calls()) return is_thread_asleep(seat->thread) ? OUTSIDE : AWAKE;
    if (read_call_of(seat, line, sizeof line) <= 0) return is_gone(seat->thread) ? AT_REST : AWAKE;
    call = strtol(line, &end, 10);
    if (end == line || call < 0) return AWAKE; /* "running", or it waits for memory */
    switch (call) {
    case SYS_futex:
    case 449: /* futex_waitv */
    case SYS_pause:
    case SYS_rt_sigsuspend:
    case SYS_rt_sigtimedwait: return AT_REST;
    default: return state_of(seat->thread) == 'D' ? AWAKE : OUTSIDE;
    }
}

/* How long a thread has run, in nanoseconds: its own clock has this number. Where none is told, each answer is another
   one. */
static uint64_t run_of(long thread) {
    static _Atomic uint64_t unknown = UINT64_C(1) << 63;
    enum { OF_A_THREAD = 6 };
    struct timespec run;
    if (next_syscall()(SYS_clock_gettime, ~thread * 8 | OF_A_THREAD, &run) != 0) return atomic_fetch_add(&unknown, 1);
    return (uint64_t)run.tv_sec * 1000000000 + (uint64_t)run.tv_nsec;
}

/* ---- a look ---- */

/* What is copied of a seat for a look. Only a look drops seats, so this one stays. */
struct looked {
    struct seat *seat;
    bool is_counted; /* among those that sleep in waits of the simulated kernel */
    bool has_left;
};
static struct looked *list;
static size_t room, count;    /* in the list */
static size_t awake, falling; /* so many are UP and haven't left, and so many are FALLING */
static atomic_flag is_looking = ATOMIC_FLAG_INIT;

static bool copy_seat(struct seat *seat, const uint64_t *moment) {
    enum descent descent = atomic_load(&seat->descent);
    bool is_counted = descent == DOWN;
    if (seat->of == &this_thread) return true;
    if (descent == UP && !seat->has_left) awake++;
    if (descent == FALLING) falling++;
    if (is_counted && !has_handlers()) return true;
    if (moment && !seat->has_left && atomic_load(&seat->asked) == *moment) return true;
    if (count == room) return false;
    list[count++] = (struct looked){seat, is_counted, seat->has_left};
    return true;
}

/* Whether there was room. */
static bool copy_seats(const uint64_t *moment) {
    size_t needed;
    bool fits = true;
    pthread_mutex_lock(&lock);
    needed = seat_count;
    pthread_mutex_unlock(&lock);
    if (needed > room) {
        struct looked *more = realloc(list, 2 * needed * sizeof *list);
        if (!more) return false;
        list = more;
        room = 2 * needed;
    }
    count = awake = falling = 0;
    pthread_mutex_lock(&lock);
    for (struct seat *seat = seats; seat && fits; seat = seat->next) fits = copy_seat(seat, moment);
    pthread_mutex_unlock(&lock);
    return fits;
}

static void unlink_seat(struct seat *seat) {
    struct seat **link = &seats;
    while (*link != seat) link = &(*link)->next;
    *link = seat->next;
}

/* The next look begins with the one that is awake now, and ends with it if it still is. */
static void put_first(struct seat *seat) {
    pthread_mutex_lock(&lock);
    unlink_seat(seat);
    seat->next = seats;
    seats = seat;
    pthread_mutex_unlock(&lock);
}

static void drop_seat(struct seat *seat) {
    pthread_mutex_lock(&lock);
    unlink_seat(seat);
    seat_count--;
    pthread_mutex_unlock(&lock);
    if (seat->file >= 0) {
        RAW(SYS_close, seat->file);
        files--;
    }
    free(seat);
}

static bool is_at_rest(struct seat *seat, uint64_t run) {
    seat->seen_run = run;
    seat->seen = rest_of(seat);
    if (seat->seen == AWAKE) put_first(seat);
    return seat->seen != AWAKE;
}

/* One that is about to end may wake another one, which waits for its end. */
static bool are_gone(void) {
    for (size_t i = 0; i < count; i++) {
        if (!list[i].has_left) continue;
        if (!is_gone(list[i].seat->thread)) return false;
        drop_seat(list[i].seat);
    }
    return true;
}

/* Whether those that aren't counted sleep, each at a moment of its own: one that hasn't run since a look did so then. */
static bool sleep_each(bool *are_new) {
    *are_new = true;
    for (size_t i = 0; i < count; i++) {
        struct seat *seat = list[i].seat;
        uint64_t run;
        if (list[i].is_counted || list[i].has_left) continue;
        run = run_of(seat->thread);
        if (seat->seen != AWAKE && seat->seen_run == run) {
            *are_new = false;
        } else if (!is_at_rest(seat, run)) {
            return false;
        }
    }
    return true;
}

/* Whether they sleep still, and haven't run since then. So there was a moment at which all of them slept. */
static bool sleep_still(void) {
    for (size_t i = 0; i < count; i++) {
        struct seat *seat = list[i].seat;
        if (list[i].is_counted || list[i].has_left) continue;
        if (!is_at_rest(seat, seat->seen_run) || (tells_calls() && run_of(seat->thread) != seat->seen_run)) return false;
    }
    return true;
}

/* One of those that are counted may have been sent a signal by another one. */
static bool are_undisturbed(void) {
    for (size_t i = 0; i < count; i++)
        if (list[i].is_counted && rest_of(list[i].seat) == AWAKE) return false;
    return true;
}

/* Nobody can have woken the only one that isn't counted, for those that are have nobody to wake. */
static struct look look_at_copies(void) {
    struct look look = {.rest = AT_REST};
    bool are_new;
    if (!are_gone() || !sleep_each(&are_new) || !are_undisturbed()) return (struct look){.rest = AWAKE};
    if ((awake > 1 || !are_new) && !sleep_still()) return (struct look){.rest = AWAKE};
    for (size_t i = 0; i < count; i++) {
        if (list[i].is_counted || list[i].has_left) continue;
        look.awake++;
        if (list[i].seat->seen == OUTSIDE) look.outside++;
    }
    if (look.outside > 0) look.rest = OUTSIDE;
    return look;
}

/* One that isn't of the seats, as a thread that is just beginning, may do anything. Where all are counted, the last one
   that began to sleep moves the clock, and not the watcher. */
static struct look look(const uint64_t *moment) {
    static const struct look awake_look = {.rest = AWAKE};
    unsigned long woken, woken_then;
    size_t not_counted = (size_t)count_awake(&woken), own = this_thread.seat ? 1 : 0;
    struct look look;
    if (not_counted == own) return (struct look){.rest = own > 0 ? AT_REST : AWAKE};
    if (!copy_seats(moment) || awake + own != not_counted) return (struct look){.rest = AWAKE, .is_partial = true};
    if (falling > 0) return awake_look;
    look = look_at_copies();
    return (size_t)count_awake(&woken_then) == not_counted && woken_then == woken ? look : awake_look;
}

/* Two that look are both awake. */
struct look look_at_others(const uint64_t *moment) {
    struct look found = {.rest = AWAKE};
    QUIET;
    if (atomic_flag_test_and_set(&is_looking)) return found;
    found = look(moment);
    atomic_flag_clear(&is_looking);
    return found;
}

/* ---- threads that compute ---- */

/* Of those that sleep, too: one that wakes up is to run as long as the others. */
bool note_runs(enum note note) {
    QUIET;
    if (atomic_flag_test_and_set(&is_looking)) return false;
    pthread_mutex_lock(&lock);
    for (struct seat *seat = seats; seat; seat = seat->next)
        if (!seat->has_left) seat->noted_run[note] = run_of(seat->thread);
    pthread_mutex_unlock(&lock);
    atomic_flag_clear(&is_looking);
    return true;
}

static bool has_run(struct seat *seat, enum note note, uint64_t least) {
    return run_of(seat->thread) - seat->noted_run[note] >= least || rest_of(seat) != AWAKE;
}

static bool have_run(enum note note, uint64_t least) {
    unsigned long woken;
    size_t not_counted = (size_t)count_awake(&woken);
    if (atomic_load(&lacks_seats)) return true;
    if (!copy_seats(NULL) || awake != not_counted) return false;
    for (size_t i = 0; i < count; i++)
        if (!list[i].is_counted && !has_run(list[i].seat, note, least)) return false;
    return true;
}

bool have_others_run(enum note note, uint64_t units) {
    bool so;
    QUIET;
    if (atomic_flag_test_and_set(&is_looking)) return false;
    so = have_run(note, units * UNIT);
    atomic_flag_clear(&is_looking);
    return so;
}
