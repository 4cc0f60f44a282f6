/* What may not reach the real kernel: clocks that are set, files that get a made-up time, signals to everybody.
   Simulated only; harm.out is what both streams have to say. Without the filter of keep.h nothing is tried. */
#include "keep.h"
#include "trace.h"

#include <fcntl.h>
#include <linux/rtc.h>
#include <linux/sockios.h>
#include <signal.h>
#include <stdlib.h>
#include <sys/ioctl.h>
#include <sys/stat.h>
#include <sys/syscall.h>
#include <sys/time.h>
#include <sys/timex.h>
#include <sys/wait.h>
#include <unistd.h>
#include <utime.h>

static void tell(const char *call, long result) {
    printf("%s: %ld\n", call, outcome(result));
    fflush(stdout);
}

/* Each sets a clock to the time that it has just told. */
static void clocks(void) {
    struct timespec now, again;
    struct timeval day, by = {1, 0};
    struct timex state = {.modes = ADJ_OFFSET, .offset = 1000};
    struct ntptimeval told;
    clock_gettime(CLOCK_REALTIME, &now);
    gettimeofday(&day, NULL);
    syscall(SYS_clock_gettime, CLOCK_REALTIME, &again);
    printf("by number the same clock: %d\n", again.tv_sec - now.tv_sec <= 1);
    fflush(stdout);
    tell("clock_settime", clock_settime(CLOCK_REALTIME, &now));
    tell("by number", syscall(SYS_clock_settime, CLOCK_REALTIME, &now));
    tell("settimeofday", settimeofday(&day, NULL));
    tell("by number", syscall(SYS_settimeofday, &day, NULL));
    tell("adjtime", adjtime(&by, NULL));
    tell("adjtimex", adjtimex(&state));
    tell("by number", syscall(SYS_adjtimex, &state));
    tell("ntp_adjtime", ntp_adjtime(&state));
    tell("ntp_gettime", ntp_gettime(&told));
    tell("clock_adjtime", clock_adjtime(CLOCK_REALTIME, &state));
    tell("by number", syscall(SYS_clock_adjtime, CLOCK_REALTIME, &state));
}

static void machine_clock(void) {
    int file = open("/dev/null", O_RDWR);
    struct rtc_time time = {.tm_mday = 9, .tm_mon = 8, .tm_year = 101};
    tell("RTC_SET_TIME", ioctl(file, RTC_SET_TIME, &time));
    tell("by number", syscall(SYS_ioctl, file, RTC_SET_TIME, &time));
    tell("RTC_ALM_SET", ioctl(file, RTC_ALM_SET, &time));
    close(file);
}

/* Whether a file was changed in 2020 or later, and so not by a simulated clock. */
static void tell_age(const char *path) {
    struct stat status;
    printf("time of the file: %s\n", stat(path, &status) == 0 && status.st_mtime > 1577836800 ? "real" : "made up");
    fflush(stdout);
}

static void made_up_times(const char *path, int file) {
    struct timespec now[2];
    struct timeval day[2];
    struct utimbuf old;
    clock_gettime(CLOCK_REALTIME, &now[0]);
    now[1] = now[0];
    gettimeofday(&day[0], NULL);
    day[1] = day[0];
    old.actime = old.modtime = time(NULL);
    tell("utimensat", utimensat(AT_FDCWD, path, now, 0));
    tell("by number", syscall(SYS_utimensat, AT_FDCWD, path, now, 0));
    tell("futimens", futimens(file, now));
    tell("utimes", utimes(path, day));
    tell("by number", syscall(SYS_utimes, path, day));
    tell("lutimes", lutimes(path, day));
    tell("futimes", futimes(file, day));
    tell("futimesat", futimesat(AT_FDCWD, path, day));
    tell("utime", utime(path, &old));
    tell("by number", syscall(SYS_utime, path, &old));
    now[0].tv_nsec = UTIME_OMIT;
    tell("one of them", utimensat(AT_FDCWD, path, now, 0));
    tell_age(path);
}

/* The real kernel's own time, and a time from elsewhere, as of another file. */
static void other_times(const char *path, int file) {
    struct timespec day[2] = {{1700000000, 5}, {1700000000, 5}}, present[2] = {{0, UTIME_NOW}, {0, UTIME_NOW}};
    struct timeval short_day[2] = {{1700000001, 5}, {1700000001, 5}};
    struct stat status;
    tell("from elsewhere", utimensat(AT_FDCWD, path, day, 0));
    stat(path, &status);
    printf("has it: %d\n", status.st_mtime == 1700000000);
    tell("by futimes", futimes(file, short_day));
    stat(path, &status);
    printf("has it: %d\n", status.st_mtime == 1700000001);
    tell("now", futimens(file, present));
    tell("now", utimes(path, NULL));
    tell_age(path);
}

/* A program that takes the answer of a fork that failed for a process. */
static void signals(void) {
    pid_t child = -1;
    tell("kill", kill(child, SIGTERM));
    tell("by number", syscall(SYS_kill, child, SIGTERM));
    tell("its group", kill(-child, SIGTERM));
    tell("killpg", killpg(1, SIGTERM));
    tell("itself", kill(getpid(), SIGCONT));
    tell("owner", fcntl(0, F_SETOWN, child));
    tell("owner", ioctl(0, FIOSETOWN, &child));
    tell("another owner", fcntl(0, F_SETOWN, getpid()));
}

/* A child that runs no other program has times in its memory that were made up. */
static void in_child(const char *path) {
    struct timespec both[2];
    pid_t child;
    clock_gettime(CLOCK_REALTIME, &both[0]);
    both[1] = both[0];
    child = fork();
    if (child == 0) {
        tell("in a child, clock_settime", clock_settime(CLOCK_REALTIME, &both[0]));
        tell("in a child, by number", syscall(SYS_clock_settime, CLOCK_REALTIME, &both[0]));
        tell("in a child, its parent's time", utimensat(AT_FDCWD, path, both, 0));
        clock_gettime(CLOCK_REALTIME, &both[0]);
        both[1] = both[0];
        tell("in a child, its own time", utimensat(AT_FDCWD, path, both, 0));
        tell("in a child, kill", kill(-1, SIGTERM));
        _exit(0);
    }
    tell("the child", waitpid(child, NULL, 0) == child ? 0 : -1);
}

int main(void) {
    char path[] = "/tmp/nippersage-harm-XXXXXX";
    int file;
    if (!keep_from_harm()) {
        printf("no filter\n");
        return 0;
    }
    clocks();
    machine_clock();
    file = mkstemp(path);
    made_up_times(path, file);
    other_times(path, file);
    in_child(path);
    unlink(path);
    signals();
    return 0;
}
