/* No number means two things: a program that raises its limit on descriptors, in each way that there is, gets files and
   pipes, and what is written to one is read from the same one. And what a limit tells when it is read back. */
#include "trace.h"

#include <fcntl.h>
#include <stdlib.h>
#include <sys/resource.h>
#include <sys/syscall.h>
#include <unistd.h>

enum { MOST = 700, PIPES = 100 };

static int files[MOST], ends[PIPES][2], opened;

/* One file, opened as often as may be, and pipes. Each descriptor of the file has a place in it. What is written there,
   and to a pipe, is its number. */
static void write_all(const char *path) {
    for (opened = 0; opened < MOST; opened++) {
        files[opened] = open(path, O_RDWR);
        if (files[opened] < 0) break;
    }
    for (int i = 0; i < PIPES; i++)
        if (pipe(ends[i]) != 0) trace("no pipe %d", i);
    for (int i = 0; i < opened; i++) {
        lseek(files[i], (off_t)sizeof i * i, SEEK_SET);
        if (write(files[i], &i, sizeof i) != sizeof i) trace("%d isn't written: %d", i, errno);
    }
    for (int i = 0; i < PIPES; i++) {
        int mark = -i;
        if (write(ends[i][1], &mark, sizeof mark) != sizeof mark) trace("pipe %d isn't written", i);
    }
}

static void read_all(int file) {
    int wrong = 0, found;
    for (int i = 0; i < PIPES; i++) {
        if (read(ends[i][0], &found, sizeof found) != sizeof found || found != -i) wrong++;
        close(ends[i][0]);
        close(ends[i][1]);
    }
    for (int i = 0; i < opened; i++) {
        if (pread(file, &found, sizeof found, (off_t)sizeof i * i) != sizeof found || found != i) wrong++;
        close(files[i]);
    }
    trace("at least 400 files: %d, wrong: %d", opened >= 400, wrong);
}

static void tell_limit(void) {
    struct rlimit limit, other;
    getrlimit(RLIMIT_NOFILE, &limit);
    prlimit(0, RLIMIT_NOFILE, NULL, &other);
    trace("limit %lu", (unsigned long)limit.rlim_cur);
    trace("prlimit agrees: %d", other.rlim_cur == limit.rlim_cur && other.rlim_max == limit.rlim_max);
    syscall(SYS_prlimit64, 0, RLIMIT_NOFILE, NULL, &other);
    trace("by number: %d", other.rlim_cur == limit.rlim_cur);
    syscall(SYS_getrlimit, RLIMIT_NOFILE, &other);
    trace("by number: %d", other.rlim_cur == limit.rlim_cur);
    trace("sysconf: %d", sysconf(_SC_OPEN_MAX) == (long)limit.rlim_cur);
    trace("table: %d", getdtablesize() == (int)limit.rlim_cur);
}

static struct rlimit limit_of(rlim_t soft) {
    struct rlimit limit;
    getrlimit(RLIMIT_NOFILE, &limit);
    limit.rlim_cur = soft;
    return limit;
}

static long raise_in(int way, rlim_t soft) {
    struct rlimit limit = limit_of(soft);
    switch (way) {
    case 0: return setrlimit(RLIMIT_NOFILE, &limit);
    case 1: return prlimit(getpid(), RLIMIT_NOFILE, &limit, NULL);
    case 2: return syscall(SYS_setrlimit, RLIMIT_NOFILE, &limit);
    default: return syscall(SYS_prlimit64, 0, RLIMIT_NOFILE, &limit, NULL);
    }
}

static void refusals(void) {
    struct rlimit limit = limit_of(100);
    limit.rlim_max = 50;
    trace("soft above hard: %ld", outcome(setrlimit(RLIMIT_NOFILE, &limit)));
    limit.rlim_max = RLIM_INFINITY;
    trace("without end: %ld", outcome(setrlimit(RLIMIT_NOFILE, &limit)));
}

/* The lowest free number of a real file, and an end of the numbers that the program sets itself. */
static void lowest(void) {
    struct rlimit limit = limit_of(20);
    int count = 0, last = -1;
    close(0);
    trace("lowest: %d", open("/dev/null", O_RDONLY));
    trace("lower: %ld", outcome(setrlimit(RLIMIT_NOFILE, &limit)));
    for (int fd = open("/dev/null", O_RDONLY); fd >= 0; fd = open("/dev/null", O_RDONLY), count++) last = fd;
    trace("full: %ld, the last was %d", outcome(-1), last);
    while (last > 2 && count-- > 0) close(last--);
}

int main(void) {
    char path[] = "/tmp/nippersage-numbers-XXXXXX";
    int file = mkstemp(path);
    dup2(open("/dev/null", O_WRONLY), 2); /* the shim says that there are no more real numbers */
    for (int way = 0; way < 4; way++) {
        trace("raise: %ld", outcome(raise_in(way, (rlim_t)1500 + (rlim_t)way)));
        tell_limit();
        write_all(path);
        read_all(file);
        if (ftruncate(file, 0) != 0) trace("not cut");
    }
    refusals();
    lowest();
    unlink(path);
    sleep(2);
    trace("slept");
    return 0;
}
