/* RLIMIT_NOFILE. The real one keeps the real descriptors below FIRST, so that no number is both real and simulated. The
   program reads back what it set, which is kept here: at first, all numbers that it may see. */
#include "preload.h"

#include <dirent.h>
#include <limits.h>
#include <pthread.h>
#include <stdarg.h>
#include <stdlib.h>
#include <sys/resource.h>
#include <sys/syscall.h>
#include <ulimit.h>

FORWARD(_exit)
FORWARD(close)
FORWARD(getrlimit)
FORWARD(open)
FORWARD(prlimit)
FORWARD(setrlimit)
FORWARD(sysconf)
FORWARD(ulimit)

static pthread_once_t once = PTHREAD_ONCE_INIT;
static pthread_mutex_t lock = PTHREAD_MUTEX_INITIALIZER;
static struct rlimit kept;  /* what the program knows */
static struct rlimit begun; /* the real one at the beginning */

static rlim_t smaller(rlim_t a, rlim_t b) { return a < b ? a : b; }

/* 0, or -1 and errno. */
static int set_real_limit(const struct rlimit *limit) {
    return (int)plain_answer(real_call(SYS_setrlimit, RLIMIT_NOFILE, (long)limit, 0, 0, 0, 0));
}

/* ---- at the beginning ---- */

static void read_limit(void) {
    rlim_t numbers = (rlim_t)FIRST + (rlim_t)NUMBERS;
    if (next_getrlimit()(RLIMIT_NOFILE, &begun) != 0) begun = (struct rlimit){(rlim_t)FIRST, (rlim_t)FIRST};
    kept.rlim_cur = numbers;
    kept.rlim_max = begun.rlim_max > numbers ? begun.rlim_max : numbers;
}

/* A real descriptor from FIRST on, which the program was started with, or -1. Under valgrind its own are in the list,
   too; but they are past the limit that it tells. The folder is read without opendir, which would call the program's
   allocator. */
static int find_high(int folder) {
    _Alignas(struct dirent64) char room[4096];
    int found = -1;
    ssize_t size;
    while (found < 0 && (size = getdents64(folder, room, sizeof room)) > 0)
        for (ssize_t at = 0; at < size;) {
            const struct dirent64 *entry = (const struct dirent64 *)(void *)(room + at);
            int fd = 0;
            for (const char *c = entry->d_name; *c >= '0' && *c <= '9'; c++) fd = fd * 10 + (*c - '0');
            if (fd >= FIRST && fd > found && (rlim_t)fd < begun.rlim_cur) found = fd;
            at += entry->d_reclen;
        }
    return found;
}

/* One from FIRST on would be meant by the number of a simulated one. */
static void refuse_high(void) {
    int folder = next_open()("/proc/self/fd", O_RDONLY | O_DIRECTORY | O_CLOEXEC), found;
    if (folder < 0) return;
    found = find_high(folder);
    next_close()(folder);
    if (found < 0) return;
    say("the program is started with descriptor %d, but numbers from %d on are simulated: close it, or set "
        "NIPPERSAGE_REAL_DESCRIPTORS to more than %d; status %d",
        found, FIRST, found, STATUS_SETTING);
    next__exit()(STATUS_SETTING);
}

void bound_real_descriptors(void) {
    bool is_set = variable("NIPPERSAGE_REAL_DESCRIPTORS");
    struct rlimit limit;
    pthread_once(&once, read_limit);
    limit = begun;
    if (is_set && limit.rlim_max < (rlim_t)FIRST)
        end_for_setting("NIPPERSAGE_REAL_DESCRIPTORS", variable("NIPPERSAGE_REAL_DESCRIPTORS"),
                        "the hard limit on open files (ulimit -Hn) is lower");
    if (limit.rlim_cur > (rlim_t)FIRST || is_set) {
        limit.rlim_cur = (rlim_t)FIRST;
        if (set_real_limit(&limit) != 0)
            say("the real descriptors can't be bounded: %s", strerrordesc_np(errno));
    }
    refuse_high();
}

/* ---- for children ---- */

/* Meanwhile the program can't change it. */
bool raise_real_limit(struct rlimit *before) {
    struct rlimit raised;
    if (is_outside) return true;
    pthread_mutex_lock(&lock);
    if (next_getrlimit()(RLIMIT_NOFILE, before) == 0) {
        raised = (struct rlimit){before->rlim_max, before->rlim_max};
        if (set_real_limit(&raised) == 0) return true;
    }
    pthread_mutex_unlock(&lock);
    return false;
}

void lower_real_limit(const struct rlimit *before) {
    if (is_outside) return;
    set_real_limit(before);
    pthread_mutex_unlock(&lock);
}

void give_limit_back(bool is_highest) {
    struct rlimit limit;
    if (next_getrlimit()(RLIMIT_NOFILE, &limit) != 0) return;
    limit.rlim_cur = is_highest ? limit.rlim_max : smaller(kept.rlim_cur, limit.rlim_max);
    set_real_limit(&limit);
}

/* ---- what the program asks and sets ---- */

static struct rlimit tell(void) {
    struct rlimit told;
    QUIET;
    pthread_once(&once, read_limit);
    pthread_mutex_lock(&lock);
    told = kept;
    pthread_mutex_unlock(&lock);
    return told;
}

/* The real kernel says whether a hard limit may be raised. The real soft one never goes above FIRST, nor, while the
   program's doesn't go above what it was told, the real hard one above what it is. */
static int keep(const struct rlimit *limit) {
    struct rlimit real;
    if (limit->rlim_cur > limit->rlim_max) return EINVAL;
    if (next_getrlimit()(RLIMIT_NOFILE, &real) != 0) return errno;
    real.rlim_max = limit->rlim_max <= kept.rlim_max ? smaller(limit->rlim_max, real.rlim_max) : limit->rlim_max;
    real.rlim_cur = smaller(limit->rlim_cur, smaller((rlim_t)FIRST, real.rlim_max));
    if (set_real_limit(&real) != 0) return errno;
    kept = *limit;
    return 0;
}

static int set(const struct rlimit *limit) {
    struct rlimit given = *limit;
    int error;
    QUIET;
    pthread_once(&once, read_limit);
    pthread_mutex_lock(&lock);
    error = keep(&given);
    pthread_mutex_unlock(&lock);
    return (int)ANSWER(-error, "setrlimit(RLIMIT_NOFILE, {rlim_cur=%llu, rlim_max=%llu})",
                       (unsigned long long)given.rlim_cur, (unsigned long long)given.rlim_max);
}

int getrlimit(__rlimit_resource_t resource, struct rlimit *limit) {
    if (is_outside || resource != RLIMIT_NOFILE) return next_getrlimit()(resource, limit);
    if (!WRITABLE(limit)) return (int)plain_answer(-EFAULT);
    *limit = tell();
    return 0;
}

int setrlimit(__rlimit_resource_t resource, const struct rlimit *limit) {
    if (is_outside || resource != RLIMIT_NOFILE) return next_setrlimit()(resource, limit);
    return READABLE(limit) ? set(limit) : (int)plain_answer(-EFAULT);
}

/* Of another process the limit is the real one. */
int prlimit(pid_t pid, __rlimit_resource_t resource, const struct rlimit *limit, struct rlimit *before) {
    struct rlimit told;
    if (is_outside || resource != RLIMIT_NOFILE || (pid != 0 && pid != getpid()))
        return next_prlimit()(pid, resource, limit, before);
    if (!READABLE_OR_NULL(limit) || !WRITABLE_OR_NULL(before)) return (int)plain_answer(-EFAULT);
    told = tell();
    if (limit && set(limit) != 0) return -1;
    if (before) *before = told;
    return 0;
}

_Static_assert(sizeof(struct rlimit) == sizeof(struct rlimit64), "on x86-64 they are one");

int getrlimit64(__rlimit_resource_t resource, struct rlimit64 *limit) {
    return getrlimit(resource, (struct rlimit *)(void *)limit);
}

int setrlimit64(__rlimit_resource_t resource, const struct rlimit64 *limit) {
    return setrlimit(resource, (const struct rlimit *)(const void *)limit);
}

int prlimit64(pid_t pid, __rlimit_resource_t resource, const struct rlimit64 *limit, struct rlimit64 *before) {
    return prlimit(pid, resource, (const struct rlimit *)(const void *)limit, (struct rlimit *)(void *)before);
}

long call_limit(long number, const long given[6]) {
    __rlimit_resource_t resource = (__rlimit_resource_t)given[number == SYS_prlimit64 ? 1 : 0];
    switch (number) {
    case SYS_getrlimit: return getrlimit(resource, (struct rlimit *)given[1]);
    case SYS_setrlimit: return setrlimit(resource, (const struct rlimit *)given[1]);
    default: return prlimit((pid_t)given[0], resource, (const struct rlimit *)given[2], (struct rlimit *)given[3]);
    }
}

/* ---- the same limit by other names ---- */

static int most_descriptors(void) {
    struct rlimit limit;
    rlim_t soft;
    getrlimit(RLIMIT_NOFILE, &limit);
    soft = limit.rlim_cur;
    return soft > INT_MAX ? INT_MAX : (int)soft;
}

int getdtablesize(void) { return most_descriptors(); }

long sysconf(int name) { return name == _SC_OPEN_MAX ? most_descriptors() : next_sysconf()(name); }

long ulimit(int command, ...) {
    va_list arguments;
    long limit;
    va_start(arguments, command);
    limit = va_arg(arguments, long);
    va_end(arguments);
    return command == __UL_GETOPENMAX ? most_descriptors() : next_ulimit()(command, limit);
}
