/* What has no double: each is refused with one line on standard error, where it would reach past the simulation. */
#include "preload.h"

#include <pty.h>
#include <sched.h>
#include <stdarg.h>
#include <stdio.h>
#include <stdlib.h>
#include <sys/ioctl.h>
#include <sys/socket.h>
#include <sys/syscall.h>
#include <sys/sysinfo.h>
#include <sys/time.h>
#include <sys/times.h>
#include <sys/uio.h>

/* ---- calls on descriptors ---- */

/* A function whose first parameter is fd: real descriptors go on, simulated ones are refused with this error. */
#define REAL_ONLY(result, name, parameters, arguments, error)       \
    FORWARD(name)                                                   \
    result name parameters {                                        \
        if (!is_simulated(fd)) return next_##name() arguments;      \
        return refuse(error, "%s(%d) is not simulated", #name, fd); \
    }

REAL_ONLY(int, bind, (int fd, const struct sockaddr *to, socklen_t size), (fd, to, size), EINVAL)
REAL_ONLY(int, listen, (int fd, int most), (fd, most), EINVAL)
REAL_ONLY(ssize_t, preadv, (int fd, const struct iovec *to, int count, off_t at), (fd, to, count, at), ESPIPE)
REAL_ONLY(ssize_t, pwritev, (int fd, const struct iovec *from, int count, off_t at), (fd, from, count, at), ESPIPE)
REAL_ONLY(ssize_t, pread, (int fd, void *to, size_t count, off_t at), (fd, to, count, at), ESPIPE)
REAL_ONLY(ssize_t, pwrite, (int fd, const void *from, size_t count, off_t at), (fd, from, count, at), ESPIPE)
REAL_ONLY(int, ftruncate, (int fd, off_t size), (fd, size), EINVAL)
REAL_ONLY(int, fsync, (int fd), (fd), EINVAL)
REAL_ONLY(int, fdatasync, (int fd), (fd), EINVAL)

#define REAL_TWO(name, parameters, first, second, arguments)                               \
    FORWARD(name)                                                                          \
    ssize_t name parameters {                                                              \
        if (!is_simulated(first) && !is_simulated(second)) return next_##name() arguments; \
        return refuse(EINVAL, "%s(%d, %d) is not simulated", #name, first, second);        \
    }

REAL_TWO(tee, (int from, int to, size_t count, unsigned int flags), from, to, (from, to, count, flags))

FORWARD(lseek)

/* ESPIPE is what Linux answers, and programs ask in order to hear it: no line. */
off_t lseek(int fd, off_t offset, int whence) {
    if (!is_simulated(fd)) return next_lseek()(fd, offset, whence);
    errno = ESPIPE;
    return -1;
}

off64_t lseek64(int fd, off64_t offset, int whence) { return lseek(fd, offset, whence); }

/* ---- processes ---- */

FORWARD(clone)
FORWARD(daemon)
FORWARD(forkpty)
FORWARD(unshare)

int clone(int (*run)(void *), void *stack, int flags, void *argument, ...) {
    void *more[3];
    va_list arguments;
    va_start(arguments, argument);
    for (int i = 0; i < 3; i++) more[i] = va_arg(arguments, void *);
    va_end(arguments);
    HAND_ON(next_clone()(run, stack, flags, argument, more[0], more[1], more[2]));
    return refuse(ENOSYS, "clone is not simulated: neither processes nor threads are made so");
}

int daemon(int stays, int keeps) {
    HAND_ON(next_daemon()(stays, keeps));
    return refuse(ENOSYS, "daemon is not simulated: what goes on would be a child, on the real kernel");
}

int forkpty(int *made, char *name, const struct termios *like, const struct winsize *size) {
    HAND_ON(next_forkpty()(made, name, like, size));
    return refuse(ENOSYS, "forkpty is not simulated: it makes a terminal");
}

/* Memory, files and names are the program's own business, but not a table of descriptors without the simulated ones. */
int unshare(int flags) {
    if (is_outside || !(flags & CLONE_FILES)) return next_unshare()(flags);
    return refuse(EINVAL, "unshare(CLONE_FILES) is not simulated: the simulated descriptors can't be copied");
}

/* ---- calls by number ---- */

FORWARD(syscall)

/* Those that tell the time, and let it pass. */
static bool call_clock(long number, const long given[6], long *result) {
    const struct timespec *until = (const struct timespec *)given[2];
    switch (number) {
    case SYS_clock_gettime: *result = clock_gettime((clockid_t)given[0], (struct timespec *)given[1]); return true;
    case SYS_gettimeofday: *result = gettimeofday((struct timeval *)given[0], (void *)given[1]); return true;
    case SYS_nanosleep:
        *result = nanosleep((const struct timespec *)given[0], (struct timespec *)given[1]);
        return true;
    case SYS_clock_nanosleep:
        *result = -clock_nanosleep((clockid_t)given[0], (int)given[1], until, (struct timespec *)given[3]);
        *result = plain_answer(*result);
        return true;
    case SYS_time: *result = (long)time((time_t *)given[0]); return true;
    case SYS_times: *result = (long)times((struct tms *)given[0]); return true;
    case SYS_sysinfo: *result = sysinfo((struct sysinfo *)given[0]); return true;
    case SYS_alarm: *result = (long)alarm((unsigned int)given[0]); return true;
    case SYS_setitimer:
        *result = setitimer((__itimer_which_t)given[0], (const struct itimerval *)given[1], (struct itimerval *)until);
        return true;
    case SYS_getitimer: *result = getitimer((__itimer_which_t)given[0], (struct itimerval *)given[1]); return true;
    case SYS_pause: *result = pause(); return true;
    default: return false;
    }
}

/* Those of descriptors that may be simulated, of times and of limits have the double that has their name. libuv closes
   so. */
static bool call_double(long number, const long given[6], long *result) {
    switch (number) {
    case SYS_close: *result = close((int)given[0]); return true;
    case SYS_close_range:
        *result = close_range((unsigned int)given[0], (unsigned int)given[1], (int)given[2]);
        return true;
    case SYS_dup: *result = dup((int)given[0]); return true;
    case SYS_dup2: *result = dup2((int)given[0], (int)given[1]); return true;
    case SYS_dup3: *result = dup3((int)given[0], (int)given[1], (int)given[2]); return true;
    case SYS_fcntl: *result = fcntl((int)given[0], (int)given[1], given[2]); return true;
    case SYS_ioctl: *result = ioctl((int)given[0], (unsigned long)given[1], given[2]); return true;
    case SYS_futex: *result = call_futex(given); return true;
    case SYS_unshare: *result = unshare((int)given[0]); return true;
    case SYS_rt_sigprocmask: *result = call_mask(given); return true;
    case SYS_getrlimit:
    case SYS_setrlimit:
    case SYS_prlimit64: *result = call_limit(number, given); return true;
    default:
        return call_clock(number, given, result) || call_harmless(number, given, result) ||
               call_reaping(number, given, result) || call_program(number, given, result);
    }
}

static bool has_no_double(long number) {
    switch (number) {
    case SYS_epoll_create:
    case SYS_epoll_create1:
    case SYS_epoll_ctl:
    case SYS_epoll_wait:
    case SYS_epoll_pwait:
    case SYS_epoll_pwait2:
    case SYS_eventfd:
    case SYS_eventfd2:
    case SYS_timerfd_create:
    case SYS_timerfd_settime:
    case SYS_timerfd_gettime:
    case SYS_pipe:
    case SYS_pipe2:
    case SYS_socketpair:
    case SYS_rt_sigaction:
    case SYS_timer_create:
    case SYS_timer_settime:
    case SYS_timer_gettime:
    case SYS_timer_getoverrun:
    case SYS_timer_delete:
    case SYS_fork:
    case SYS_vfork:
    case SYS_clone:
    case SYS_clone3: return true;
    default: return false;
    }
}

bool call_by_number(long number, const long given[6], long *result) {
    if (number == SYS_io_uring_setup) {
        *result = refuse(ENOSYS, "io_uring is not simulated");
    } else if (has_no_double(number)) {
        *result = refuse_number(number, "syscall(%ld): this call by its number is not simulated", number);
    } else {
        return call_double(number, given, result);
    }
    return true;
}

/* A child of vfork would run on a stack that this call goes on with. */
bool call_outside(long number, const long given[6], long *result) {
    if (call_harmless(number, given, result) || call_program(number, given, result)) return true;
    if (number == SYS_rt_sigprocmask) {
        *result = call_mask(given);
        return true;
    }
    if (number == SYS_vfork) number = SYS_fork;
    *result = plain_answer(real_call(number, given[0], given[1], given[2], given[3], given[4], given[5]));
    return true;
}

long syscall(long number, ...) {
    va_list arguments;
    long given[6], result;
    va_start(arguments, number);
    for (int i = 0; i < 6; i++) given[i] = va_arg(arguments, long);
    va_end(arguments);
    if (is_outside ? call_outside(number, given, &result) : call_by_number(number, given, &result)) return result;
    return next_syscall()(number, given[0], given[1], given[2], given[3], given[4], given[5]);
}
