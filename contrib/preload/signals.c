/* Handlers of signals. The real kernel sends signals and runs handlers, as ever; but each handler of the program is
 * run by a function of this file, for two reasons.
 *
 * A call of the shim holds locks. So, as a system call does, it runs no handler: one that comes meanwhile is held back
 * until the call ends or sleeps. Then no lock is held, and the handler may call what it likes.
 *
 * A wait has to know that a handler has run in it, for it answers EINTR then. */
#include "preload.h"

#include <pthread.h>
#include <signal.h>
#include <sys/syscall.h>
#include <ucontext.h>

FORWARD(sigaction)
FORWARD(syscall)

/* Signals as the real kernel keeps them: bit n - 1 for signal n. The C library's set is larger. */
#define BIT(signal) (UINT64_C(1) << ((signal) - 1))
/* What is never blocked: the two that the C library keeps for itself, and that of doors.c. */
#define NEVER_BLOCKED (BIT(32) | BIT(33) | BIT(SIGSYS))
#define FAULTS (BIT(SIGSEGV) | BIT(SIGBUS) | BIT(SIGFPE) | BIT(SIGILL) | BIT(SIGTRAP) | BIT(SIGSYS))
/* All but those, and faults, which can't wait. */
#define ALL (~(NEVER_BLOCKED | FAULTS))
/* Those of a touch of a bad pointer: pointers.c. */
#define BAD_TOUCHES (BIT(SIGSEGV) | BIT(SIGBUS))
enum { MOST_SIGNALS = 64 };

_Thread_local struct thread_state this_thread;

/* What the program asked for. The lock is held while all signals are blocked or held back. */
static pthread_mutex_t lock = PTHREAD_MUTEX_INITIALIZER;
static struct sigaction actions[MOST_SIGNALS + 1];
static _Atomic uint64_t handled; /* the signals that have a handler */
static void (*door_handler)(int, siginfo_t *, void *); /* of SIGSYS, or NULL */
static uint64_t kept;            /* those that this file hears of without one, too */

static uint64_t bits_of(const sigset_t *set) {
    uint64_t bits;
    memcpy(&bits, set, sizeof bits);
    return bits & ~NEVER_BLOCKED;
}

static uint64_t set_mask(uint64_t mask) {
    uint64_t before = 0;
    RAW(SYS_rt_sigprocmask, SIG_SETMASK, &mask, &before, sizeof mask);
    return before;
}

/* ---- calls that hold handlers back ---- */

/* What was held back is sent again, to this thread, while all signals are blocked: so the real kernel runs the handlers
   as it would have. */
static void send_held(void) {
    while (this_thread.first_held < this_thread.held_count) {
        siginfo_t info = this_thread.held[this_thread.first_held++];
        if (this_thread.first_held == this_thread.held_count) this_thread.first_held = this_thread.held_count = 0;
        if (next_syscall()(SYS_rt_tgsigqueueinfo, getpid(), next_syscall()(SYS_gettid), info.si_signo, &info) != 0)
            say("a signal %d is lost: %s", info.si_signo, strerrordesc_np(errno));
    }
}

void let_handlers_run(void) {
    int saved = errno;
    if (!this_thread.is_held_back) return;
    send_held();
    this_thread.is_held_back = false;
    set_mask(this_thread.mask);
    errno = saved;
}

bool let_pending_run(void) {
    unsigned long before = this_thread.handlers;
    int quiet = this_thread.quiet;
    atomic_signal_fence(memory_order_seq_cst);
    this_thread.quiet = 0;
    atomic_signal_fence(memory_order_seq_cst);
    let_handlers_run();
    this_thread.quiet = quiet;
    atomic_signal_fence(memory_order_seq_cst);
    return this_thread.handlers != before;
}

/* From here on this thread has all signals blocked. Under valgrind it hasn't, so there is room for some more. */
static void hold_back(int signal, siginfo_t *info, ucontext_t *interrupted) {
    uint64_t all = ALL;
    if (!this_thread.is_held_back) {
        this_thread.is_held_back = true;
        this_thread.mask = bits_of(&interrupted->uc_sigmask);
    }
    /* The real kernel's set here has 8 bytes: what is behind them isn't of the set. */
    memcpy(&interrupted->uc_sigmask, &all, sizeof all);
    if (this_thread.held_count == MOST_HELD) {
        say("a signal %d is lost: too many came at once", signal);
    } else {
        this_thread.held[this_thread.held_count] = *info;
        this_thread.held[this_thread.held_count++].si_signo = signal;
    }
}

/* ---- running a handler ---- */

void lock_actions(void) { pthread_mutex_lock(&lock); }

void unlock_actions(void) { pthread_mutex_unlock(&lock); }

static bool is_function(const struct sigaction *action) {
    return action->sa_handler != SIG_DFL && action->sa_handler != SIG_IGN;
}

static struct sigaction door_action(void) {
    struct sigaction action = {.sa_sigaction = door_handler, .sa_flags = SA_SIGINFO | SA_ONSTACK | SA_RESTART};
    sigfillset(&action.sa_mask);
    sigdelset(&action.sa_mask, SIGSEGV); /* it looks at what stands behind pointers */
    sigdelset(&action.sa_mask, SIGBUS);
    return action;
}

/* What the real kernel is to do. */
static struct sigaction real_action(int signal, const struct sigaction *asked) {
    struct sigaction real = *asked;
    bool is_kept = asked->sa_handler == SIG_DFL && (kept & BIT(signal));
    if (signal == SIGSYS && door_handler) return door_action();
    if (!is_function(asked) && !is_kept) return real;
    real.sa_sigaction = arrive;
    real.sa_flags = (asked->sa_flags & ~(SA_NODEFER | (int)SA_RESETHAND)) | SA_SIGINFO;
    if (is_kept && !(FAULTS & BIT(signal))) real.sa_flags |= SA_ONSTACK;
    sigfillset(&real.sa_mask);
    return real;
}

/* What the program asked for of a signal. That of SA_RESETHAND is forgotten. */
static struct sigaction take_action(int signal) {
    struct sigaction action;
    pthread_mutex_lock(&lock);
    action = actions[signal];
    if (is_function(&action) && (action.sa_flags & (int)SA_RESETHAND)) {
        struct sigaction none = {.sa_handler = SIG_DFL}, real = real_action(signal, &none);
        actions[signal].sa_handler = SIG_DFL;
        atomic_fetch_and(&handled, ~BIT(signal));
        next_sigaction()(signal, &real, NULL);
    }
    pthread_mutex_unlock(&lock);
    return action;
}

/* Lets a signal that has no handler end the program. A fault comes again once it is left to the real kernel; it is
   below 0 here. */
static void end_by(void *nothing, long which) {
    struct sigaction none = {.sa_handler = SIG_DFL};
    bool is_fault = which < 0;
    int signal = (int)(is_fault ? -which : which);
    uint64_t one = BIT(signal);
    (void)nothing;
    if (!is_fault) write_history_once();
    next_sigaction()(signal, &none, NULL);
    if (is_fault) return;
    next_syscall()(SYS_tgkill, getpid(), next_syscall()(SYS_gettid), signal);
    RAW(SYS_rt_sigprocmask, SIG_UNBLOCK, &one, NULL, sizeof one);
}

void end_if_killed(void) {
    for (int i = this_thread.first_held; i < this_thread.held_count; i++) {
        int signal = this_thread.held[i].si_signo;
        if ((kept & BIT(signal)) && take_action(signal).sa_handler == SIG_DFL) end_by(NULL, signal);
    }
}

static void move_bytes_in_handler(void *nothing, long unused) {
    (void)nothing, (void)unused;
    move_bytes();
}

/* Runs with all signals blocked, as each action asks for. The handler runs with the mask that the program asked for. In
   a handler of SIGCHLD all that the child wrote can be read. */
static void run_handler(int signal, siginfo_t *info, ucontext_t *interrupted, bool is_fault) {
    struct sigaction action = take_action(signal);
    uint64_t mask = bits_of(&interrupted->uc_sigmask) | (bits_of(&action.sa_mask) & ~BAD_TOUCHES);
    struct sleeper *in = this_thread.innermost;
    struct place before = begin_handler_stack(interrupted);
    if (signal == SIGCHLD && has_children()) call_apart(move_bytes_in_handler, NULL, 0);
    if (!is_function(&action)) {
        if (action.sa_handler == SIG_DFL) call_apart(end_by, NULL, is_fault ? -signal : signal);
        end_handler_stack(before);
        return;
    }
    if (!(action.sa_flags & SA_NODEFER)) mask |= BIT(signal);
    this_thread.handlers++;
    if (!(action.sa_flags & SA_RESTART)) this_thread.breaks++;
    if (in) call_apart(begin_handler_in, in, action.sa_flags & SA_RESTART);
    set_mask(mask);
    call_handler(action.sa_sigaction, signal, info, interrupted);
    if (in) call_apart(end_handler_in, in, 0);
    end_handler_stack(before);
}

/* Faults can't wait: what follows them is wrong. */
void arrive(int signal, siginfo_t *info, void *context) {
    bool is_fault = (FAULTS & BIT(signal)) && info->si_code > 0;
    int saved = errno;
    if (is_fault && end_bad_touch(context)) return;
    if (this_thread.quiet > 0 && !is_fault && !is_outside) {
        hold_back(signal, info, context);
    } else {
        if (this_thread.innermost) disturb(this_thread.innermost);
        run_handler(signal, info, context, is_fault);
    }
    errno = saved;
}

/* ---- what the program asks for ---- */

static void keep_action(int signal, const struct sigaction *action) {
    actions[signal] = *action;
    if (is_function(action)) {
        atomic_fetch_or(&handled, BIT(signal));
    } else {
        atomic_fetch_and(&handled, ~BIT(signal));
    }
}

int sigaction(int signal, const struct sigaction *given, struct sigaction *before) {
    struct sigaction was = {.sa_handler = SIG_DFL}, real, asked;
    int status;
    QUIET;
    if (signal < 1 || signal > MOST_SIGNALS) return next_sigaction()(signal, given, before);
    next_syscall(); /* is found now, and not in a handler */
    if (!READABLE_OR_NULL(given) || !WRITABLE_OR_NULL(before)) return (int)plain_answer(-EFAULT);
    if (given) {
        asked = *given;
        real = real_action(signal, given);
    }
    pthread_mutex_lock(&lock);
    status = next_sigaction()(signal, given ? &real : NULL, &was);
    if (status == 0 && (was.sa_sigaction == arrive || (signal == SIGSYS && door_handler))) was = actions[signal];
    if (status == 0 && given) keep_action(signal, &asked);
    pthread_mutex_unlock(&lock);
    if (status == 0 && before) *before = was;
    return status;
}

void handle_door_signal(void (*handler)(int signal, siginfo_t *info, void *context)) {
    struct sigaction door, was;
    door_handler = handler;
    door = door_action();
    if (next_sigaction()(SIGSYS, &door, &was) == 0 && was.sa_handler == SIG_IGN) keep_action(SIGSYS, &was);
}

/* The handler before, or SIG_ERR. */
static sighandler_t set_handler(int signal, sighandler_t handler, int flags) {
    struct sigaction action = {.sa_handler = handler, .sa_flags = flags}, before;
    if (handler == SIG_ERR) {
        errno = EINVAL;
        return SIG_ERR;
    }
    if (!(flags & SA_NODEFER)) sigaddset(&action.sa_mask, signal);
    return sigaction(signal, &action, &before) == 0 ? before.sa_handler : SIG_ERR;
}

static _Atomic uint64_t interrupting; /* the signals for which siginterrupt was called */

sighandler_t signal(int signal, sighandler_t handler) {
    bool breaks = signal >= 1 && signal <= MOST_SIGNALS && (atomic_load(&interrupting) & BIT(signal));
    return set_handler(signal, handler, breaks ? 0 : SA_RESTART);
}

sighandler_t ssignal(int number, sighandler_t handler) { return signal(number, handler); }

sighandler_t bsd_signal(int number, sighandler_t handler);
sighandler_t bsd_signal(int number, sighandler_t handler) { return signal(number, handler); }

sighandler_t sysv_signal(int signal, sighandler_t handler) {
    return set_handler(signal, handler, (int)SA_RESETHAND | SA_NODEFER);
}

/* What signal is in a program that was compiled for System V. */
sighandler_t __sysv_signal(int signal, sighandler_t handler) { return sysv_signal(signal, handler); }

/* The mask is part of what it says and sets. */
sighandler_t sigset(int signal, sighandler_t handler) {
    struct sigaction action;
    sigset_t one, before;
    sigemptyset(&one);
    if (sigaddset(&one, signal) != 0) return SIG_ERR;
    if (handler != SIG_HOLD) {
        sighandler_t was = set_handler(signal, handler, 0);
        if (was == SIG_ERR || pthread_sigmask(SIG_UNBLOCK, &one, &before) != 0) return SIG_ERR;
        return sigismember(&before, signal) ? SIG_HOLD : was;
    }
    if (sigaction(signal, NULL, &action) != 0 || pthread_sigmask(SIG_BLOCK, &one, &before) != 0) return SIG_ERR;
    return sigismember(&before, signal) ? SIG_HOLD : action.sa_handler;
}

int sigignore(int signal) { return set_handler(signal, SIG_IGN, 0) == SIG_ERR ? -1 : 0; }

int siginterrupt(int signal, int breaks) {
    struct sigaction action;
    if (sigaction(signal, NULL, &action) != 0) return -1;
    if (breaks) {
        atomic_fetch_or(&interrupting, BIT(signal));
        action.sa_flags &= ~SA_RESTART;
    } else {
        atomic_fetch_and(&interrupting, ~BIT(signal));
        action.sa_flags |= SA_RESTART;
    }
    return sigaction(signal, &action, NULL);
}

/* ---- for the rest of the shim ---- */

/* Those that something else than this file hears of already are left to it, as a sanitizer's. */
static void keep_signal(int signal) {
    struct sigaction none = {.sa_handler = SIG_DFL}, now, real;
    if (next_sigaction()(signal, NULL, &now) != 0 || is_function(&now)) return;
    kept |= BIT(signal);
    if (now.sa_handler == SIG_IGN) return; /* until the program asks for its end by it */
    real = real_action(signal, &none);
    next_sigaction()(signal, &real, NULL);
}

void keep_signals(void) {
    next_syscall();
    keep_signal(SIGSEGV);
    keep_signal(SIGBUS);
    if (!settings()->history) return;
    keep_signal(SIGHUP);
    keep_signal(SIGINT);
    keep_signal(SIGTERM);
}

uint64_t swap_mask(const sigset_t *set) {
    uint64_t before = set_mask(ALL);
    if (this_thread.is_held_back) before = this_thread.mask;
    this_thread.is_held_back = true;
    this_thread.mask = bits_of(set);
    return before;
}

void put_mask_back(uint64_t before) {
    set_mask(ALL);
    this_thread.is_held_back = true;
    this_thread.mask = before;
}

/* Such a signal does nothing, or stops the program, where it has no handler. */
static bool ends_programs(int signal) {
    return !((BIT(SIGCHLD) | BIT(SIGCONT) | BIT(SIGURG) | BIT(SIGWINCH) | BIT(SIGSTOP) | BIT(SIGTSTP) | BIT(SIGTTIN) |
              BIT(SIGTTOU)) &
             BIT(signal));
}

void keep_history_before(int signal) {
    uint64_t mask = this_thread.mask;
    struct sigaction action;
    if (!this_thread.is_held_back) RAW(SYS_rt_sigprocmask, SIG_BLOCK, NULL, &mask, sizeof mask);
    if (!ends_programs(signal) || (mask & BIT(signal)) || next_sigaction()(signal, NULL, &action) != 0) return;
    if (action.sa_handler == SIG_DFL) keep_history();
}

bool has_handlers(void) { return (atomic_load(&handled) & ~FAULTS) != 0; }

void send_to_this_thread(int signal) {
    keep_history_before(signal);
    next_syscall()(SYS_tgkill, getpid(), next_syscall()(SYS_gettid), signal);
}

/* Two come of a write: to a pipe whose reader has gone, and to a file that is as large as it may be. One that waited
   before is left. */
long write_quietly(int fd, const void *bytes, size_t count) {
    static const struct timespec none;
    uint64_t own = BIT(SIGPIPE) | BIT(SIGXFSZ), before = 0, pending = 0;
    long taken;
    RAW(SYS_rt_sigprocmask, SIG_BLOCK, &own, &before, sizeof before);
    if (before & own) RAW(SYS_rt_sigpending, &pending, sizeof pending);
    own &= ~pending;
    taken = RAW(SYS_write, fd, bytes, count);
    if ((taken == -EPIPE || taken == -EFBIG) && own) RAW(SYS_rt_sigtimedwait, &own, NULL, &none, sizeof own);
    RAW(SYS_rt_sigprocmask, SIG_SETMASK, &before, NULL, sizeof before);
    return taken;
}

/* ---- waiting for a signal ---- */

/* Sleeps until a handler has run. */
static int await_handler(const char *call) {
    struct epoll_event none;
    struct wait wait = {.instance = sleeping_instance(), .events = &none, .most = 1, .timeout = -1, .call = call,
                        .awaits_signal = true};
    return wait_at(&wait);
}

FORWARD(pause)
FORWARD(sigsuspend)

int pause(void) {
    HAND_ON(next_pause()());
    QUIET;
    return (int)ANSWER(await_handler("pause"), "pause()");
}

int sigsuspend(const sigset_t *set) {
    uint64_t before;
    int result;
    HAND_ON(next_sigsuspend()(set));
    QUIET;
    if (!can_read(set, sizeof before)) return (int)ANSWER(-EFAULT, "sigsuspend(%p)", (const void *)set);
    before = swap_mask(set);
    result = await_handler("sigsuspend");
    put_mask_back(before);
    return (int)ANSWER(result, "sigsuspend(...)");
}
