/* Masks of signals, as far as SIGSYS goes: a handler that is blocked can't answer at the doors. So no mask of the
   program's has it in the real kernel, whether it is set by name or by number. The program is told of its masks as it
   set them, and a SIGSYS of its own waits for as long as they have it. */
#include "preload.h"

#include <sys/syscall.h>
#include <ucontext.h>

FORWARD(pthread_sigmask)

#define DOOR_BIT (UINT64_C(1) << (SIGSYS - 1))

static _Thread_local bool has_blocked, has_pending; /* SIGSYS, as the program knows it */

/* The program has asked for a mask that has it, or hasn't. */
static void note_blocked(int how, bool has) {
    if (how == SIG_SETMASK || has) has_blocked = has && how != SIG_UNBLOCK;
    if (has_blocked || !has_pending) return;
    has_pending = false;
    raise(SIGSYS);
}

void take_own_door_signal(int signal, siginfo_t *info, void *context) {
    if (has_blocked && info->si_code <= 0) {
        has_pending = true;
    } else {
        arrive(signal, info, context);
    }
}

/* ---- by name ---- */

int pthread_sigmask(int how, const sigset_t *given, sigset_t *before) {
    bool was_blocked = has_blocked;
    sigset_t asked, real;
    int error;
    if (given) real = asked = *given;
    if (given && how != SIG_UNBLOCK) sigdelset(&real, SIGSYS);
    error = next_pthread_sigmask()(how, given ? &real : NULL, before);
    if (error == 0 && before && was_blocked) sigaddset(before, SIGSYS);
    if (error == 0 && given) note_blocked(how, sigismember(&asked, SIGSYS) == 1);
    return error;
}

int sigprocmask(int how, const sigset_t *given, sigset_t *before) {
    int error = pthread_sigmask(how, given, before);
    if (error == 0) return 0;
    errno = error;
    return -1;
}

/* ---- by number: 0, or minus an error number ---- */

/* In the handler of a call that the filter has stopped, the mask is the one that is set at its end. */
static long change_in(uint64_t *mask, int how, const uint64_t *given) {
    if (!given) return 0;
    switch (how) {
    case SIG_BLOCK: *mask |= *given; return 0;
    case SIG_UNBLOCK: *mask &= ~*given; return 0;
    case SIG_SETMASK: *mask = *given; return 0;
    default: return -EINVAL;
    }
}

static long change(uint64_t *mask, const long given[6]) {
    const uint64_t *asked = (const uint64_t *)given[1];
    uint64_t *told = (uint64_t *)given[2], real = 0, before = mask ? *mask : 0;
    bool was_blocked = has_blocked, has;
    int how = (int)given[0];
    long status;
    if ((size_t)given[3] != sizeof real) return -EINVAL;
    if (!READABLE_OR_NULL(asked) || !WRITABLE_OR_NULL(told)) return -EFAULT;
    if (asked) real = *asked;
    has = real & DOOR_BIT;
    if (how != SIG_UNBLOCK) real &= ~DOOR_BIT;
    status = mask ? change_in(mask, how, asked ? &real : NULL)
                  : RAW(SYS_rt_sigprocmask, how, asked ? &real : NULL, &before, sizeof before);
    if (status < 0) return status;
    if (told) *told = was_blocked ? before | DOOR_BIT : before;
    if (asked) note_blocked(how, has);
    return 0;
}

long call_mask(const long given[6]) { return plain_answer(change(NULL, given)); }

/* The real kernel's set here has 8 bytes. */
long change_mask_of(void *context, const long given[6]) {
    sigset_t *set = &((ucontext_t *)context)->uc_sigmask;
    uint64_t mask;
    long status;
    memcpy(&mask, set, sizeof mask);
    status = change(&mask, given);
    memcpy(set, &mask, sizeof mask);
    return status;
}
