/* How a program hears of the end of its children: the real kernel tells it. But before, all that the child wrote is
   there to be read. */
#include "children.h"

#include <stdio.h>
#include <stdlib.h>
#include <sys/resource.h>
#include <sys/wait.h>

FORWARD(wait4)
FORWARD(waitid)

/* So many threads sleep in the real kernel until a child ends: threads.c moves bytes for them. */
static atomic_int reaping;

bool is_anyone_reaping(void) { return atomic_load(&reaping) > 0; }

static void begin_reaping(int options) {
    if (options & WNOHANG) return;
    move_bytes();
    atomic_fetch_add(&reaping, 1);
}

static void end_reaping(int options, pid_t ended) {
    if (!(options & WNOHANG)) atomic_fetch_sub(&reaping, 1);
    if (ended > 0) {
        note_reaped(ended);
        move_bytes();
    } else if (options & WNOHANG) {
        look_for_nothing();
    }
}

/* Whether a wait can tell the program so much. If not, the child is gone all the same, as on Linux. */
static bool tell(void *to, const void *told, size_t size) {
    if (!to) return true;
    if (!can_write(to, size)) return false;
    memcpy(to, told, size);
    return true;
}

pid_t wait4(pid_t pid, int *status, int options, struct rusage *usage) {
    struct rusage used;
    int told = 0;
    pid_t got;
    if (is_outside || !has_children()) return next_wait4()(pid, status, options, usage);
    begin_reaping(options);
    got = next_wait4()(pid, &told, options, &used);
    end_reaping(options, got > 0 && (WIFEXITED(told) || WIFSIGNALED(told)) ? got : 0);
    if (got <= 0 || (tell(status, &told, sizeof told) && tell(usage, &used, sizeof used))) return got;
    return (pid_t)plain_answer(-EFAULT);
}

pid_t wait3(int *status, int options, struct rusage *usage) { return wait4(-1, status, options, usage); }

pid_t waitpid(pid_t pid, int *status, int options) { return wait4(pid, status, options, NULL); }

pid_t wait(int *status) { return wait4(-1, status, 0, NULL); }

static bool is_end(const siginfo_t *info, int options) {
    return !(options & WNOWAIT) &&
           (info->si_code == CLD_EXITED || info->si_code == CLD_KILLED || info->si_code == CLD_DUMPED);
}

int waitid(idtype_t type, id_t id, siginfo_t *info, int options) {
    siginfo_t told;
    int got;
    if (is_outside) return next_waitid()(type, id, info, options);
    if (type == P_PIDFD) id = (id_t)real_pidfd((int)id);
    if (!has_children()) return next_waitid()(type, id, info, options);
    memset(&told, 0, sizeof told);
    begin_reaping(options);
    got = next_waitid()(type, id, &told, options);
    end_reaping(options, got == 0 && is_end(&told, options) ? told.si_pid : 0);
    return got != 0 || tell(info, &told, sizeof told) ? got : (int)plain_answer(-EFAULT);
}

bool call_reaping(long number, const long given[6], long *result) {
    switch (number) {
    case SYS_wait4:
        *result = wait4((pid_t)given[0], (int *)given[1], (int)given[2], (struct rusage *)given[3]);
        return true;
    case SYS_waitid:
        if (given[4]) return false;
        *result = waitid((idtype_t)given[0], (id_t)given[1], (siginfo_t *)given[2], (int)given[3]);
        return true;
    case SYS_pidfd_open: *result = pidfd_open((pid_t)given[0], (unsigned int)given[1]); return true;
    case SYS_pidfd_send_signal:
        *result = pidfd_send_signal((int)given[0], (int)given[1], (siginfo_t *)given[2], (unsigned int)given[3]);
        return true;
    default: return false;
    }
}
