/* What the files of the shim share. Its page is README.md.
 *
 * A program's descriptor FIRST + n is the simulated kernel's n. Lower numbers are the real kernel's: limits.c bounds
 * them by RLIMIT_NOFILE, so the two never meet. A function that takes descriptors asks is_simulated, and hands a real
 * one on to the C library's function of the same name. */
#ifndef PRELOAD_H
#define PRELOAD_H

#include "nippersage.h"

#include <errno.h>
#include <fcntl.h>
#include <pthread.h>
#include <signal.h>
#include <stdatomic.h>
#include <stdbool.h>
#include <stddef.h>
#include <stdint.h>
#include <string.h>
#include <sys/time.h>
#include <sys/types.h>
#include <time.h>
#include <unistd.h>

/* The functions that stand in for the C library's are seen from outside; these aren't. */
#pragma GCC visibility push(hidden)

/* Times are counted in UNITs: the simulated ones, and the real ones with which they are compared. A UNIT is the unit of
   the kernel's clock, a microsecond: it has so many nanoseconds. The others have so many UNITs. */
enum { UNIT = 1000, MILLISECOND = 1000000 / UNIT, SECOND = 1000000000 / UNIT };

/* With what status the shim ends a program: for a setting, for threads that wait for ever, for too many records. */
enum { STATUS_SETTING = 2, STATUS_ENDLESS = 70, STATUS_FULL = 71 };

/* ---- pointers.c: what a program's pointers lead to ---- */

/* Whether each page of these bytes can be touched, from the first byte to the last: see can_read and can_write. */
bool touch_to_read(const void *first, const void *last);
bool touch_to_write(void *first, void *last);
/* Whether a call may read so many bytes, or write them. If not, its answer is EFAULT. */
static inline bool can_read(const void *from, size_t size) {
    uintptr_t last = (uintptr_t)from + size - 1;
    return size == 0 || (last >= (uintptr_t)from && touch_to_read(from, (const void *)last));
}
static inline bool can_write(void *to, size_t size) {
    uintptr_t last = (uintptr_t)to + size - 1;
    return size == 0 || (last >= (uintptr_t)to && touch_to_write(to, (void *)last));
}
/* Whether it may read a text, up to its end, and a list of such, which NULL ends. NULL is no list, and may be. */
bool can_read_text(const char *text);
bool can_read_list(char *const texts[]);
/* The same for one object, and for one that may be NULL. */
#define READABLE(pointer) can_read(pointer, sizeof *(pointer))
#define WRITABLE(pointer) can_write(pointer, sizeof *(pointer))
#define READABLE_OR_NULL(pointer) (!(pointer) || READABLE(pointer))
#define WRITABLE_OR_NULL(pointer) (!(pointer) || WRITABLE(pointer))
/* Whether a fault is one of a touch; the touch goes on, then, and answers that it failed. */
bool end_bad_touch(void *context);

/* ---- stacks.c: the shim's own stacks ---- */

/* How much stack the first thread has, what a new one will have, and what one that has just begun has. */
void learn_first_stack(void);
size_t stack_of(const pthread_attr_t *attributes);
void learn_stack(size_t size);
/* Before and after a handler of the program that broke into what `context` is of. */
struct place {
    uintptr_t top, room;
};
struct place begin_handler_stack(const void *context);
void end_handler_stack(struct place before);
/* Calls it on the stack on which it would run on Linux. */
void call_handler(void (*handler)(int, siginfo_t *, void *), int signal, siginfo_t *info, void *context);
/* Calls a function of the shim within a handler, on the own stack if the program's is small. */
void call_apart(void (*function)(void *, long), void *a, long b);
/* Calls a function on another stack. */
void call_on(uintptr_t stack, void (*function)(int, siginfo_t *, void *), int signal, siginfo_t *info, void *context);
/* Where on the program's stack the call was made to which a frame of the shim belongs. */
uintptr_t place_of_call(const void *frame);
/* Whether a jump to `target` leaves what was called at a place; what it leaves of the own stack is free again. */
bool is_left(uintptr_t place, uintptr_t target);
void leave_stacks_below(uintptr_t target);

/* ---- settings.c: what the environment says ---- */

struct settings {
    int first;                       /* NIPPERSAGE_REAL_DESCRIPTORS: so many numbers are real */
    uint64_t records;                /* NIPPERSAGE_RECORDS: the history may have fewer; 0 is no limit */
    uint64_t busy_waits;             /* NIPPERSAGE_BUSY_WAITS: so many take a millisecond; 0 is none */
    uint64_t patience;               /* NIPPERSAGE_PATIENCE, in milliseconds of real time */
    uint64_t child_time;             /* NIPPERSAGE_CHILD_TIME: so many times slower is a clock that a child holds */
    struct nippersage_limits limits; /* NIPPERSAGE_LIMITS */
    const char *history, *log;       /* NIPPERSAGE_HISTORY and NIPPERSAGE_LOG, whole paths; NULL if they aren't set */
};
extern _Atomic(const struct settings *) read_settings;
const struct settings *make_settings(void);
static inline const struct settings *settings(void) {
    const struct settings *read = atomic_load_explicit(&read_settings, memory_order_acquire);
    return read ? read : make_settings();
}
/* A variable of the environment, or NULL: as getenv, which a program may have replaced. */
const char *variable(const char *name);
/* A variable that is a whole number, or `otherwise` if it isn't set. One out of its range ends the program. */
uint64_t whole_number(const char *name, uint64_t least, uint64_t most, uint64_t otherwise);
_Noreturn void end_for_setting(const char *name, const char *value, const char *why);

/* The first simulated descriptor, and how many of them there may be. */
#define FIRST (settings()->first)
#define NUMBERS ((int)settings()->limits.descriptors)

/* In a child no number is simulated: FIRST is above all. */
void make_all_numbers_real(void);

static inline bool is_simulated(int fd) { return fd >= FIRST; }

/* ---- limits.c: the real descriptors stay below FIRST ---- */

/* Bounds them, and ends the program if there is a higher one. */
void bound_real_descriptors(void);
/* getrlimit(2), setrlimit(2) and prlimit(2) of RLIMIT_NOFILE, by number. */
long call_limit(long number, const long given[6]);

/* ---- kernel.c: the kernel, who calls it, and the end ---- */

/* The task of the thread that calls. The first call of all makes the kernel. */
struct nippersage_task self(void);
/* The kernel, for a question that is no call; NULL before it is made, and while it is. */
struct nippersage_kernel *the_kernel(void);
/* The C library's function of a name. It ends the program where there is none. */
void *next_of(const char *name);
/* next_NAME() is the C library's NAME. All of them are kept in a list. */
struct forward {
    const char *name;
    void *_Atomic *found;
};
#define IN_LIST __attribute__((section("forwards"), used))
#define FORWARD(name)                                                            \
    static void *_Atomic found_##name;                                           \
    static const struct forward forward_##name IN_LIST = {#name, &found_##name}; \
    static __typeof__(&name) next_##name(void) {                                 \
        if (!found_##name) found_##name = next_of(#name);                        \
        return (__typeof__(&name))found_##name;                                  \
    }
/* Finds all that there are, for a child: another thread may hold the linker's lock at the fork. */
void find_forwards(void);
/* One line on standard error. */
void say(const char *format, ...) __attribute__((format(printf, 1, 2)));
/* The instance in which nothing is ever registered: who waits there sleeps. */
int sleeping_instance(void);

/* ---- history.c: where the history goes ---- */

/* Lets the history of a new kernel go to its file as it comes, or nowhere. */
void begin_history(struct nippersage_kernel *kernel);
/* Writes what has come by now. The same for the end of the program: what comes later isn't written. */
void keep_history(void);
void write_history_once(void);

/* ---- lines.c: what is refused ---- */

/* -1 with this errno, and one line on standard error, unless the same call was refused at the same place before. Its
   format says which call it is, and the name at its beginning. */
int refuse(int error, const char *format, ...) __attribute__((format(printf, 2, 3)));
/* The same with ENOSYS for a call of the real kernel by its number, which says which one it is. */
int refuse_number(long number, const char *format, ...) __attribute__((format(printf, 2, 3)));
/* From where a call came that doors.c answers, meanwhile; else 0. */
extern _Thread_local uintptr_t place_at_door;
/* How often more each of them came, at the end. */
void tell_what_came_again(void);

/* ---- signals.c: handlers of signals, and when they run ---- */

struct sleeper;
struct timed;
struct seat;
enum { MOST_DEPTH = 8, MOST_HELD = 16 };
/* What the shim keeps of a thread. A handler that breaks in may find any state of it but a wrong one. */
struct thread_state {
    int quiet;                 /* so many calls that hold handlers back are being made */
    bool is_held_back;         /* all signals are blocked, until `mask` is set when handlers may run again */
    int first_held, held_count;
    siginfo_t held[MOST_HELD]; /* signals that came meanwhile */
    bool is_counted;           /* the thread takes part: threads.c */
    struct seat *seat;         /* of one that takes part: looks.c */
    _Atomic unsigned long calls; /* so often it called self */
    uint64_t mask;             /* of the real kernel's signals */
    struct sleeper *innermost; /* the wait in which a handler would run now, or NULL */
    struct timed *timed;       /* the innermost wait with a time that sleeps in the real kernel, or NULL */
    unsigned long handlers;    /* so many have been run */
    unsigned long breaks;      /* so many of these without SA_RESTART */
    int depth;                 /* in so many waits of this thread handlers may run, or do */
    uint32_t callers[MOST_DEPTH];
};
/* build says that it is there from the start, without a call of an allocator. */
extern _Thread_local struct thread_state this_thread;
/* As a system call, a function that begins so runs no handler of a signal before its end, except where it sleeps.
   Who takes a lock of the shim, or calls the library, has to be in one. */
#define QUIET __attribute__((cleanup(end_quiet), unused)) int is_quiet = begin_quiet()
/* The same for memory.c, which the library calls: nobody is woken at its end. */
#define QUIET_WITHIN __attribute__((cleanup(end_quiet_within), unused)) int is_quiet = begin_quiet()
/* Runs what was held back, where this thread may run handlers again. */
void let_handlers_run(void);
/* Gives those their answers whose waits have ended: sleepers.c. */
void wake_sleepers(void);
/* Each call has several of these within one another: so they are inline. */
static inline int begin_quiet(void) {
    this_thread.quiet++;
    atomic_signal_fence(memory_order_seq_cst);
    return 0;
}
static inline void end_quiet_within(const int *unused) {
    (void)unused;
    atomic_signal_fence(memory_order_seq_cst);
    this_thread.quiet--;
    atomic_signal_fence(memory_order_seq_cst);
    if (this_thread.quiet == 0 && this_thread.is_held_back) let_handlers_run();
}
static inline void end_quiet(const int *unused) {
    if (this_thread.quiet == 1) wake_sleepers();
    end_quiet_within(unused);
}
/* The same within a quiet call, and whether there was any. */
bool let_pending_run(void);
/* Blocks other signals for the rest of a quiet call, and tells which were; the same back. */
uint64_t swap_mask(const sigset_t *set);
void put_mask_back(uint64_t before);
/* Makes this the handler of SIGSYS, whatever the program asks for; it hands the program's own on to arrive. */
void handle_door_signal(void (*handler)(int signal, siginfo_t *info, void *context));
void arrive(int signal, siginfo_t *info, void *context);
/* Whether the program has a handler of a signal that others may send. */
bool has_handlers(void);
/* Begins to hear of faults, and of signals from outside that end a program, which leave the history. */
void keep_signals(void);
/* Ends the program by such a signal, if one was held back, for a sleep in which no handler may run. */
void end_if_killed(void);
/* Writes the history if a signal that is about to be sent ends the program. */
void keep_history_before(int signal);
/* Sends a signal that this thread has earned, as SIGPIPE. */
void send_to_this_thread(int signal);
/* write(2) of the real kernel, which sends no signal if it fails: its answer, or minus an error number. */
long write_quietly(int fd, const void *bytes, size_t count);

/* ---- sleepers.c: threads that sleep in waits, and who moves the clock ---- */

struct wait {
    int instance;               /* the kernel's number */
    const void *place;          /* the description of the instance, or NULL where it is the shim's own */
    struct epoll_event *events; /* room for `most` */
    int most;
    int64_t timeout; /* in UNITs, without end below 0 */
    const char *call;
    bool restarts;      /* a handler of SA_RESTART doesn't end it */
    bool awaits_signal; /* nothing but a signal is to end it */
};
/* The number of events, or minus an error number: -EINTR if a handler ended it. Ends the program if nothing can. */
int wait_at(const struct wait *wait);
/* Whether any thread is inside of wait_at. */
bool is_anyone_waiting(void);
/* The next moment of the simulated clock at which something happens. Whether there is one. */
bool next_moment(uint64_t *moment);
/* As a signal arrives in a wait, before any lock is taken; then before and after its handler. */
void disturb(struct sleeper *sleeper);
void begin_handler_in(void *sleeper, long restarts);
void end_handler_in(void *sleeper, long unused);
/* Ends those waits of this thread that a jump to an address of the stack leaves. */
void leave_waits_below(uintptr_t address);
/* So many threads more take part, or fewer. */
void count_threads(int more);
/* How many of them don't sleep in wait_at, and how often one of those that did was woken, or one more took part. */
int count_awake(unsigned long *woken);

/* ---- looks.c: who of the threads sleeps ---- */

/* The thread that calls is one of those that are looked at, and is one no more. */
void take_seat(void);
void leave_seat(void);
/* Whether a thread begins to sleep in wait_at; and that it has given the lock back, and all but sleeps. A seat may be
   NULL. */
void mark_asleep(struct seat *seat, bool is_asleep);
void mark_down(struct seat *seat);
/* The thread that calls asks in vain at this moment. */
void mark_asking(uint64_t moment);
/* How many times threads that take part called self: what didn't change it made no call. */
unsigned long calls(void);
/* Whether a thread sleeps in the real kernel; one that has ended does. */
bool is_thread_asleep(long thread);
/* What threads do at one moment. What sleeps OUTSIDE may be woken by time or by something outside of the program. */
enum rest { AWAKE, OUTSIDE, AT_REST };
struct look {
    enum rest rest;
    int awake;       /* so many threads don't sleep in wait_at */
    int outside;     /* so many sleep OUTSIDE */
    bool is_partial; /* there are others, which may do anything */
};
/* Looks at all that take part but this one. Who asked in vain at the moment, if one is given, counts as one at rest. */
struct look look_at_others(const uint64_t *moment);
/* Notes how long each of the others has run, for a question of this kind; whether it could. Whether each that doesn't
   sleep has run for so many UNITs since then. */
enum note { OF_A_SECOND, OF_A_WAIT, NOTES };
bool note_runs(enum note note);
bool have_others_run(enum note note, uint64_t units);

/* ---- log.c: a line for each call, as strace writes it ---- */

extern bool is_logged;
/* -1 and errno for minus an error number, else the result. */
long plain_answer(long result);
long logged_answer(long result, const char *format, ...) __attribute__((format(printf, 2, 3)));
/* The arguments are looked at only if there is a log. */
#define ANSWER(result, ...) (is_logged ? logged_answer(result, __VA_ARGS__) : plain_answer(result))
struct text {
    char of[256];
};
#define TEXT (&(struct text){""})
/* As strace writes a buffer: the first of its bytes, or its address if count is below 0. */
const char *bytes_text(struct text *room, const void *bytes, ssize_t count);
const char *event_text(struct text *room, const struct epoll_event *event);
const char *clock_text(struct text *room, clockid_t clock);
const char *time_text(struct text *room, const struct timespec *time);
const char *short_time_text(struct text *room, const struct timeval *time);
const char *setting_text(struct text *room, const struct itimerspec *setting);
const char *flags_text(struct text *room, const char *prefix, int flags);
const char *reports_text(struct text *room, const struct epoll_event *events, int count);

/* ---- table.c: what the kernel doesn't keep of a descriptor ---- */

enum kind { PIPE, SOCKET, EVENTFD, TIMERFD, EPOLL, PIDFD };

/* The bytes that wait at a pipe or a socket: copies.c. */
struct waiting {
    char *bytes;
    size_t room, first, count;
    bool has_childs; /* a child has written some of what waits */
};

/* What setsockopt has set: options.c. */
struct options {
    uint32_t switches; /* bit n is option n */
    int send_room, receive_room, priority;
    int64_t send_time, receive_time; /* in UNITs; 0 is no end */
    struct {
        int on, seconds;
    } linger;
};

/* An open file description. */
struct description {
    enum kind kind;
    int access; /* O_RDONLY, O_WRONLY or O_RDWR */
    clockid_t clock;
    atomic_bool is_nonblocking;
    struct waiting waiting;
    int pipe_room; /* what F_SETPIPE_SZ has set, or 0 */
    struct options options;
    struct description *peer;
    int holders;       /* descriptors that name it, calls that use it, and children */
    bool is_shut;      /* nothing is written here any more */
    bool is_read_here; /* the program itself has read here, or tried */
    bool is_watched;   /* an instance asks for what can be read here */
    int shown;         /* so many children have been shown bytes of it that they haven't taken: bridge.c */
    int real_pidfd;    /* of a pidfd */
    struct description *next_pidfd;
};

/* The description of a descriptor, held until it is let go of, or NULL. */
struct description *hold(int fd);
void let_go(struct description *description);
/* Makes room for all descriptors: 0 or -ENOMEM. */
int make_table(void);
/* The kernel's number of an instance or an eventfd of the shim's own, or minus an error number; its end. */
int make_own_instance(void);
int make_own_eventfd(unsigned int value);
void end_own(int number);
/* For children.h, under the lock: what a number of the kernel names, or NULL; whether it is free; one holder more, or
   fewer; a number that names a description, or -1; whether any does. */
struct description *description_at(int number, bool *closes_on_exec);
bool is_taken(int number);
void free_number(int number);
void add_holder(struct description *description);
void drop_holder(struct description *description);
int number_of(const struct description *description);
bool is_named(const struct description *description);
/* A new pidfd, which has this real one: its descriptor, or minus an error number, and then the real one is closed. */
int put_pidfd(int real);
/* The lock of all descriptions, for a quiet function. No call that waits is made under it. */
void lock_table(void);
void unlock_table(void);
/* The same at the end of the program, which may come under the lock. Whether it was taken. */
bool try_lock_table(void);
/* Whether a descriptor still names a description, under the lock. */
bool names(int fd, const struct description *description);
/* A number of the kernel that names a description, or -1. The lock isn't held. */
int number_that_names(const struct description *description);

/* ---- copies.c: all under the table's lock ---- */

/* Makes room for so many bytes more. Whether there is memory for it. */
bool make_room(struct waiting *waiting, size_t more);
void add_waiting(struct waiting *waiting, const char *bytes, size_t count);
/* The first of them, at most `count`: how many. They stay. */
size_t look_at_waiting(const struct waiting *waiting, char *bytes, size_t count);
void drop_waiting(struct waiting *waiting, size_t count);
void end_waiting(struct waiting *waiting);

/* ---- bytes.c ---- */

/* Writes as send(2) with these flags does: how many bytes, or minus an error number. */
ssize_t give(int fd, const char *bytes, size_t count, int flags, const char *call);
/* Reads as recv(2) with these flags does. */
ssize_t take(int fd, char *bytes, size_t count, int flags, const char *call);

/* ---- options.c ---- */

/* Whether a real socket was given a timeout, and how long a call on a real descriptor waits at most; 0 is no end, or no
   wait. */
extern atomic_bool has_timeouts;
int64_t timeout_of_real(int fd, int option, int flags);
/* A call on a real descriptor, which may be such a socket. One that connects tells by another error that its time is
   over. */
#define IN_TIME(fd, option, flags, call)                                                                 \
    __extension__({                                                                                      \
        int64_t longest = has_timeouts && !is_outside ? timeout_of_real(fd, option, flags) : 0;          \
        struct timed outside;                                                                            \
        __typeof__(call) answer;                                                                         \
        if (longest > 0) begin_outside(&outside, longest, false);                                        \
        answer = longest > 0 ? CANCELLABLE(&outside, call) : (call);                                     \
        if (longest > 0) end_outside(&outside, answer < 0 && (errno == EAGAIN || errno == EINPROGRESS)); \
        answer;                                                                                          \
    })

/* ---- waits.c ---- */

/* The waits of a call that blocks, each until an event arrives at a description. The first one registers it. */
struct block {
    int instance; /* -1 before the first wait */
    const char *call;
    uint64_t end;  /* when -EAGAIN is the answer; FOREVER where it isn't */
    bool restarts; /* a handler of SA_RESTART doesn't end it */
};
#define FOREVER UINT64_MAX
int wait_for_arrival(struct block *block, int fd, uint32_t events);
void end_block(struct block *block);

/* ---- clock.c ---- */

/* The simulated clock, in UNITs. */
uint64_t moment_now(void);
/* In UNITs, rounded up; -1 where it is no time. One that is too long for the type is as long as the type has it. */
int64_t units_of(const struct timespec *time);
struct timespec timespec_of(uint64_t units);
/* Lets so many UNITs of simulated time pass: 0, or -EINTR. */
int sleep_for(int64_t units, const char *call);
/* Moves the clock to a moment, if it isn't there yet, and sends the signals of alarms whose time has come. */
void bring_clock_to(uint64_t moment);
/* Moves the clock on by a millisecond, but not past the next moment at which something happens, and only if no other
   thread does anything. */
void let_clock_go_on(void);
/* A call of this thread answered EAGAIN, or told a timer: after many of them the clock goes on. */
void count_vain(void);
/* Before a fork: the moment that the child keeps. */
void keep_moment(void);
/* The simulated clock at the start, and what CLOCK_REALTIME was when it was at 0, in seconds and in UNITs. */
enum { START = 1000 * SECOND, EPOCH_SECONDS = 1000000000 - START / SECOND };
#define EPOCH ((int64_t)EPOCH_SECONDS * SECOND)
/* The kernel's clock goes no further. That is 31 years. */
#define LAST_MOMENT (UINT64_C(1000000000) * SECOND)
/* Whether a clock is one of those that the simulated clock stands for; whether it tells the time of day. */
bool is_clock(clockid_t clock);
bool is_of_day(clockid_t clock);

/* ---- alarms.c ---- */

/* Sends the signals of alarms that are due. */
void send_alarms(void);
/* The first moment at which one is due. Whether there is one, and the clock can be there. */
bool next_alarm(uint64_t *moment);

/* ---- harm.c: what would change the machine by a made-up value ---- */

/* Whether an ioctl or an fcntl of a real descriptor may be made; if not, it is refused. */
bool is_harmless_request(int fd, unsigned long request, const void *argument);
bool is_harmless_command(int command, long argument);
/* If the call of this number has a double in harm.c, calls that. */
bool call_harmless(long number, const long given[6], long *result);

/* ---- refused.c ---- */

/* If the call of this number has a double, or is refused, calls or refuses it. */
bool call_by_number(long number, const long given[6], long *result);

/* ---- doors.c: what is called past the C library ---- */

/* Sets a filter of the real kernel that stops what is refused by name. */
void shut_doors(void);
/* A call of the real kernel that no filter of the shim's stops: its answer, or minus an error number. */
long real_call(long number, long first, long second, long third, long fourth, long fifth, long sixth);

/* ---- paths.c ---- */

/* Whether a path names a list of this process' descriptors. Whether a call may go to it: if not, it is refused. */
bool is_list(const char *path);
bool may_reach(const char *call, const char *path);

/* ---- streams.c ---- */

/* At an orderly end of the program: what streams haven't written yet. */
void flush_streams(void);

/* ---- masks.c: SIGSYS, which is never blocked ---- */

/* rt_sigprocmask(2) with these arguments, by number; the same in a handler that the filter has called, for what the
   context is of: 0, or minus an error number. */
long call_mask(const long given[6]);
long change_mask_of(void *context, const long given[6]);
/* A SIGSYS that the filter hasn't sent. */
void take_own_door_signal(int signal, siginfo_t *info, void *context);

/* ---- handles.c ---- */

/* The C library's dlsym. */
void *(*real_dlsym(void))(void *handle, const char *name);

/* ---- threads.c ---- */

/* Begins to move the clock for threads that sleep in the real kernel. */
void watch_threads(void);
/* This thread goes to sleep, and so many are awake, or sleep elsewhere. */
void tell_watcher(int awake);
/* How far the clock may go on for a thread that asks in vain again and again. */
uint64_t step_for_asking(void);
/* Ends the waits with a time whose end has come. */
void end_timed_waits(uint64_t moment);
/* Takes the thread that calls among those that take part. */
void join_threads(void);
/* A wait of the C library with a time by CLOCK_REALTIME, which answers an error number: calls `wait` until it answers
   something else than ETIMEDOUT, or the simulated clock is at `day`. */
int wait_until(const struct timespec *day, int (*wait)(void *given, const struct timespec *until), void *given);
/* A wait with a time, as pthread_cond_timedwait. It sleeps in the real kernel, and ends once the simulated clock is at
   its end. Who moves the clock to it wakes it. Where other threads go on for as long as it is to last and some more, the
   watcher moves the clock to its end: CPython's threads take turns so. */
struct timed {
    int64_t end;             /* by the simulated clock, or below 0 where it is no time */
    int64_t left;            /* UNITs of real time before it ends in any case */
    int64_t due;             /* in real time: from then on it ends if the others have gone on */
    uint32_t *words;         /* of what it waits for, or NULL: it sleeps on one of them */
    size_t word_count;
    bool is_condition;       /* what it waits for is a condition variable */
    clockid_t clock;         /* the real clock that the C library waits by */
    struct timespec until;   /* the end of its sleep by that clock, which is read again each time that it wakes */
    bool is_outside;         /* it waits for something outside of the program, as a poll of real descriptors */
    bool lasts_on;           /* such a one may last on after its end, and then holds the clock no more */
    uint64_t began;          /* by the simulated clock */
    int64_t began_really;
    uint32_t own_word;       /* it sleeps on, once it is over outside */
    uintptr_t place;         /* where on the program's stack the call was made */
    struct timed *outer;     /* the one of the same thread in whose handler this one was begun, or NULL */
    struct timed *next;
};
/* One until `time` on an object of so many bytes, or on NULL. It then sleeps until `until`, and what error_of_timed makes
   of its error is the answer, or SLEEP_ON: then it sleeps again. */
enum { SLEEP_ON = -1 };
void begin_timed_on(struct timed *timed, const struct timespec *time, const void *object, size_t size,
                    bool is_condition);
int error_of_timed(struct timed *timed, int error);
void end_timed(const struct timed *timed);
/* A call of the C library in such a wait, in which the thread may be cancelled. It ends the wait then. */
#define CANCELLABLE(timed, call)                        \
    __extension__({                                     \
        __typeof__(call) answered;                      \
        pthread_cleanup_push(end_cancelled, (timed));   \
        answered = (call);                              \
        pthread_cleanup_pop(0);                         \
        answered;                                       \
    })
void end_cancelled(void *timed);
/* Ends those waits of this thread that a jump to an address of the stack leaves. */
void leave_timed_below(uintptr_t address);
/* A wait for something outside that takes at most so many UNITs of real time. Until its end the clock goes no faster
   than real time does. Whether it is over says whether nothing came: then the clock is at its end. One that lasts on is
   over at its end if something comes after it. */
void begin_outside(struct timed *timed, int64_t units, bool lasts_on);
void end_outside(struct timed *timed, bool is_over);
/* futex(2) with these six arguments, whose times are by the simulated clock. */
long call_futex(const long given[6]);

/* ---- children: children.h says what they are ---- */

/* children.c: whether this process is one, so that all that it does is real. */
extern bool is_outside;
/* At the head of a double that asks for no descriptor: in a child it hands on to the C library. */
#define HAND_ON(call) \
    if (is_outside) return call
/* Whether anything of children is there. */
extern atomic_int living;
static inline bool has_children(void) { return atomic_load_explicit(&living, memory_order_relaxed) > 0; }
/* The locks of what a child needs to find whole. */
void lock_sleepers(void);
void unlock_sleepers(void);
void lock_actions(void);
void unlock_actions(void);
void lock_memory(void);
void unlock_memory(void);
void lock_stacks(void);
void unlock_stacks(void);
/* In a child there is no kernel. */
void forget_kernel(void);

/* A call of real_call with fewer arguments. */
#define RAW(...) RAW_OF_SEVEN(__VA_ARGS__, 0, 0, 0, 0, 0, 0)
#define RAW_OF_SEVEN(number, a, b, c, d, e, f, ...) \
    real_call(number, (long)(a), (long)(b), (long)(c), (long)(d), (long)(e), (long)(f))

/* limits.c: while the limit is raised, descriptors can be made above the program's. Whether it is: then it has to be
   lowered again. In a child, the limit that the program was told, or for a while the highest one. */
struct rlimit;
bool raise_real_limit(struct rlimit *before);
void lower_real_limit(const struct rlimit *before);
void give_limit_back(bool is_highest);

/* lost.c: before its numbers are real, a child remembers which were simulated. In it the answer of a real call on a
   number, which is refused with a line if what the parent has there isn't there in a child. The answer of a close, by
   what the real kernel has answered: such a number is free then. */
void remember_lost(void);
bool is_lost(int fd);
long answer_unless_lost(long result, const char *call, int fd);
int close_lost(int fd, int status);
/* At the head of a double: in a child it hands on to the C library, and tells what isn't there. */
#define HAND_ON_OF(fd, name, call) \
    if (is_outside) return (int)answer_unless_lost(call, name, fd)

/* bridge.c: moves what children and the program have written, taken and closed. Whether anything was moved. For a call
   that isn't under the table's lock. */
bool move_bytes(void);
/* The same in a wait. */
bool move_in_wait(void);
/* The program is told that there is nothing, or finds something in a wait at once. If it goes on so, it looks. Whether a
   millisecond of real time has passed in vain. */
bool look_for_nothing(void);
void look_if_busy(void);
/* Sleeps in the real kernel until there is something to move, or a signal, or for so long; handlers may run. */
void sleep_with_children(const struct timespec *most);
/* The same for the thread that watches the others, which moves bytes for those that sleep in the real kernel. Tells for
   how much real time the program has not computed since its last turn. Whether there are children: else it doesn't
   sleep. */
bool spend_a_turn(const struct timespec *turn, uint64_t *passed);
/* Before the program looks whether something waits, or has room: what children have taken by now waits no more. */
void note_taken(void);
/* Before the program reads bytes by itself: those that were shown to a child come back. Under the table's lock. */
void claim_shown(struct description *description);
/* At the end of the program: what it has written goes to its children. */
void hand_over(void);
/* sleepers.c: whether threads that take part sleep in waits, but not all; whether all do. reaping.c: whether one waits
   for the end of a child. */
bool is_partly_asleep(void);
bool are_all_asleep(void);
/* threads.c: whether waits with a time on locks go on. */
bool has_timed_waits(void);
bool is_anyone_reaping(void);

/* pace.c: whether the clock may go to a moment, for no child holds it or real time has passed. */
bool may_go_to(uint64_t moment);
/* A wait begins, and no other one goes on: what passed before it counts for no time that begins with it. */
void begin_pace(void);
/* So much real time has passed in a wait. */
void pass_time(uint64_t units);
/* A child has done something, or a wait is over: what has passed in it is paid, if a tenth of a second or more is owed. */
void pay_at_answer(void);
/* Whether a poll that finds nothing may take its millisecond. */
bool may_take_a_while(void);

/* pidfd.c: a new one waits for the end of its process; it is no more. */
void begin_pidfd(struct description *description);
void end_pidfd(struct description *description);
/* The real descriptor of a pidfd, or the same number. */
int real_pidfd(int fd);

/* If the call of this number has a double in reaping.c or programs.c, calls that. */
bool call_reaping(long number, const long given[6], long *result);
bool call_program(long number, const long given[6], long *result);

/* refused.c: a call of a child by its number: programs run without the shim, and nothing that could do harm is done. */
bool call_outside(long number, const long given[6], long *result);

/* children.c: whether this thread is in a fork that the shim itself has begun. */
bool is_making_child(void);
/* doors.c: whether the filter lets the shim fork. An exec of a child, whose program lies where the filter leaves it
   alone: minus an error number. */
bool can_fork(void);
long run_program(long number, const long given[6]);

/* log.c: a line for what a child has done. */
#define log_child(pid, ...)                          \
    do {                                             \
        if (is_logged) logged_child(pid, __VA_ARGS__); \
    } while (0)
void logged_child(pid_t pid, long result, const char *format, ...) __attribute__((format(printf, 3, 4)));

#pragma GCC visibility pop

/* Doubles that an older C library doesn't declare. */
int pidfd_open(pid_t pid, unsigned int flags);
int pidfd_send_signal(int fd, int signal, siginfo_t *info, unsigned int flags);

#endif
