/* What would change the machine, or other programs, by a value that the simulation made up: its time, and the -1 that
   is its answer to fork. Each is refused with a line; what isn't named here goes on to the C library. */
#include "preload.h"

#include <linux/rtc.h>
#include <linux/sockios.h>
#include <signal.h>
#include <sys/stat.h>
#include <sys/syscall.h>
#include <sys/time.h>
#include <sys/timex.h>
#include <utime.h>

FORWARD(kill)
FORWARD(killpg)

/* ---- the machine's clocks ---- */

static int refuse_clock(const char *call) {
    return refuse(EPERM, "%s: a program with a simulated clock may not change the machine's", call);
}

int clock_settime(clockid_t clock, const struct timespec *time) {
    (void)clock, (void)time;
    return refuse_clock("clock_settime");
}

int settimeofday(const struct timeval *time, const struct timezone *zone) {
    (void)time, (void)zone;
    return refuse_clock("settimeofday");
}

/* The C library declares it no more, but old programs call it. */
int stime(const time_t *time);
int stime(const time_t *time) {
    (void)time;
    return refuse_clock("stime");
}

int adjtime(const struct timeval *by, struct timeval *before) {
    (void)by, (void)before;
    return refuse_clock("adjtime");
}

int adjtimex(struct timex *state) {
    (void)state;
    return refuse_clock("adjtimex");
}

int __adjtimex(struct timex *state);
int __adjtimex(struct timex *state) { return adjtimex(state); }

int ntp_adjtime(struct timex *state) {
    (void)state;
    return refuse_clock("ntp_adjtime");
}

int clock_adjtime(clockid_t clock, struct timex *state) {
    (void)clock, (void)state;
    return refuse_clock("clock_adjtime");
}

/* They only read, but the machine's clock. The header makes ntp_gettimex of the one; old programs call the other. */
int ntp_gettime(struct ntptimeval *time) {
    (void)time;
    return refuse_clock("ntp_gettime");
}

int old_ntp_gettime(struct ntptimeval *time) __asm__("ntp_gettime");
int old_ntp_gettime(struct ntptimeval *time) { return ntp_gettime(time); }

/* Those that set the machine's own clock of the day, which runs while the machine is off, or its alarm. */
static bool sets_a_clock(unsigned long request) {
    return request == RTC_SET_TIME || request == RTC_EPOCH_SET || request == RTC_ALM_SET || request == RTC_WKALM_SET;
}

/* ---- times of files ---- */

/* From the first moment of the simulated clock to a day past its present one. A program that copies the times of a
   file, or takes them from an archive, hardly meets them. */
static bool is_made_up(time_t seconds) {
    enum { A_DAY = 86400 };
    time_t now = EPOCH_SECONDS + timespec_of(moment_now()).tv_sec;
    return seconds >= EPOCH_SECONDS && seconds <= now + A_DAY;
}

static bool is_explicit(const struct timespec *time) {
    return time->tv_nsec != UTIME_NOW && time->tv_nsec != UTIME_OMIT;
}

/* Whether times may be those of a real file. NULL is the real kernel's own present. */
static bool may_have(const char *call, const struct timespec times[2]) {
    for (int i = 0; times && i < 2; i++)
        if (is_explicit(&times[i]) && is_made_up(times[i].tv_sec)) {
            refuse(EPERM, "%s: %lld is a time of the simulated clock, and no real file may have it", call,
                   (long long)times[i].tv_sec);
            return false;
        }
    return true;
}

/* Without a path, the times of the file that `folder` names. */
static int set_real_times(int folder, const char *path, const struct timespec times[2], int flags) {
    return (int)plain_answer(real_call(SYS_utimensat, folder, (long)path, (long)times, flags, 0, 0));
}

static int set_times(const char *call, int folder, const char *path, const struct timespec times[2], int flags) {
    if (times && !can_read(times, 2 * sizeof *times)) return (int)plain_answer(-EFAULT);
    if (!may_have(call, times)) return -1;
    return path ? set_real_times(folder, path, times, flags) : (int)plain_answer(-EINVAL);
}

/* The same with microseconds. */
static int set_short_times(const char *call, int folder, const char *path, const struct timeval times[2], int flags) {
    struct timespec both[2];
    if (times && !can_read(times, 2 * sizeof *times)) return (int)plain_answer(-EFAULT);
    for (int i = 0; times && i < 2; i++) {
        if (times[i].tv_usec < 0 || times[i].tv_usec >= 1000000) {
            errno = EINVAL;
            return -1;
        }
        both[i] = (struct timespec){times[i].tv_sec, times[i].tv_usec * 1000};
    }
    return set_times(call, folder, path, times ? both : NULL, flags);
}

int utimensat(int folder, const char *path, const struct timespec times[2], int flags) {
    return set_times("utimensat", folder, path, times, flags);
}

static int set_times_of(const char *call, int fd, const struct timespec times[2]) {
    if (is_simulated(fd)) return refuse(EBADF, "%s(%d) is not simulated", call, fd);
    if (times && !can_read(times, 2 * sizeof *times)) return (int)plain_answer(-EFAULT);
    return may_have(call, times) ? set_real_times(fd, NULL, times, 0) : -1;
}

int futimens(int fd, const struct timespec times[2]) { return set_times_of("futimens", fd, times); }

int futimes(int fd, const struct timeval times[2]) {
    struct timespec both[2];
    if (times && !can_read(times, 2 * sizeof *times)) return (int)plain_answer(-EFAULT);
    for (int i = 0; times && i < 2; i++) both[i] = (struct timespec){times[i].tv_sec, times[i].tv_usec * 1000};
    return set_times_of("futimes", fd, times ? both : NULL);
}

int utimes(const char *path, const struct timeval times[2]) {
    return set_short_times("utimes", AT_FDCWD, path, times, 0);
}

int lutimes(const char *path, const struct timeval times[2]) {
    return set_short_times("lutimes", AT_FDCWD, path, times, AT_SYMLINK_NOFOLLOW);
}

int futimesat(int folder, const char *path, const struct timeval times[2]) {
    if (!path) return futimes(folder, times);
    return set_short_times("futimesat", folder, path, times, 0);
}

int utime(const char *path, const struct utimbuf *times) {
    struct timespec both[2];
    if (!READABLE_OR_NULL(times)) return (int)plain_answer(-EFAULT);
    if (times) both[0] = (struct timespec){times->actime, 0}, both[1] = (struct timespec){times->modtime, 0};
    return set_times("utime", AT_FDCWD, path, times ? both : NULL, 0);
}

/* ---- signals to others ---- */

/* A program that takes fork's answer for a process, without a look, would end every process of its user by kill(-1),
   and by kill of minus that the machine's first one. Signal 0 only asks. */
static bool may_signal(pid_t to, int signal) { return signal == 0 || (to != -1 && (to != 1 || getpid() == 1)); }

static int refuse_signal(const char *call, pid_t to) {
    return refuse(EPERM, "%s(%d): -1 is the answer to a fork that failed, and no process", call, to);
}

int kill(pid_t to, int signal) { return may_signal(to, signal) ? next_kill()(to, signal) : refuse_signal("kill", to); }

int killpg(pid_t group, int signal) {
    return may_signal(-group, signal) ? next_killpg()(group, signal) : refuse_signal("killpg", group);
}

/* ---- requests and commands on real descriptors ---- */

bool is_harmless_request(int fd, unsigned long request, const void *argument) {
    if (sets_a_clock(request)) {
        refuse(EPERM, "ioctl(%d, %#lx): a program with a simulated clock may not set the machine's", fd, request);
        return false;
    }
    if ((request == FIOSETOWN || request == SIOCSPGRP) && can_read(argument, sizeof(int)) &&
        *(const int *)argument == -1) {
        refuse_signal("ioctl to set the owner", -1);
        return false;
    }
    return true;
}

bool is_harmless_command(int command, long argument) {
    if (command != F_SETOWN || (int)argument != -1) return true;
    refuse_signal("fcntl F_SETOWN", -1);
    return false;
}

/* ---- the same by number ---- */

static long time_files(long number, const long given[6]) {
    const char *path = (const char *)given[number == SYS_utimensat || number == SYS_futimesat ? 1 : 0];
    switch (number) {
    case SYS_utime: return utime(path, (const struct utimbuf *)given[1]);
    case SYS_utimes: return utimes(path, (const struct timeval *)given[1]);
    case SYS_futimesat: return futimesat((int)given[0], path, (const struct timeval *)given[2]);
    default: break;
    }
    if (!path) return set_times_of("utimensat", (int)given[0], (const struct timespec *)given[2]);
    return utimensat((int)given[0], path, (const struct timespec *)given[2], (int)given[3]);
}

bool call_harmless(long number, const long given[6], long *result) {
    switch (number) {
    case SYS_clock_settime: *result = refuse_clock("clock_settime"); return true;
    case SYS_settimeofday: *result = refuse_clock("settimeofday"); return true;
    case SYS_adjtimex: *result = refuse_clock("adjtimex"); return true;
    case SYS_clock_adjtime: *result = refuse_clock("clock_adjtime"); return true;
    case SYS_kill: *result = kill((pid_t)given[0], (int)given[1]); return true;
    case SYS_utime:
    case SYS_utimes:
    case SYS_futimesat:
    case SYS_utimensat: *result = time_files(number, given); return true;
    default: return false;
    }
}
