/* Where each clock begins, and how many waits that find something take a millisecond. Simulated only; clocks.out and
   clocks.7.out are what it says. */
#include <stdio.h>
#include <sys/epoll.h>
#include <sys/eventfd.h>
#include <sys/syscall.h>
#include <sys/sysinfo.h>
#include <sys/time.h>
#include <sys/timeb.h>
#include <sys/times.h>
#include <time.h>
#include <unistd.h>

#pragma GCC diagnostic ignored "-Wdeprecated-declarations" /* of ftime */

static void tell(const char *name, clockid_t clock) {
    struct timespec now;
    clock_gettime(clock, &now);
    printf("%s: %lld.%09ld\n", name, (long long)now.tv_sec, now.tv_nsec);
}

static long milliseconds(void) {
    struct timespec now;
    clock_gettime(CLOCK_MONOTONIC, &now);
    return (long)now.tv_sec * 1000 + now.tv_nsec / 1000000;
}

/* Those that tell the time in other units. A second has a hundred ticks on x86-64. */
static void tell_others(void) {
    struct timeb day;
    struct tms used;
    struct sysinfo machine;
    ftime(&day);
    printf("ftime: %lld.%03d\n", (long long)day.time, day.millitm);
    printf("times: %lld, by number %ld\n", (long long)times(&used), syscall(SYS_times, &used));
    sysinfo(&machine);
    printf("up for %ld seconds", machine.uptime);
    syscall(SYS_sysinfo, &machine);
    printf(", by number %ld\n", machine.uptime);
}

int main(void) {
    struct epoll_event event = {.events = EPOLLIN};
    struct timeval now;
    struct timespec utc;
    int instance = epoll_create1(0);
    long began;
    tell("monotonic", CLOCK_MONOTONIC);
    tell("raw", CLOCK_MONOTONIC_RAW);
    tell("coarse", CLOCK_MONOTONIC_COARSE);
    tell("boot", CLOCK_BOOTTIME);
    tell("real", CLOCK_REALTIME);
    tell("coarse real", CLOCK_REALTIME_COARSE);
    gettimeofday(&now, NULL);
    printf("gettimeofday: %lld.%06ld\ntime: %lld\n", (long long)now.tv_sec, (long)now.tv_usec, (long long)time(NULL));
    if (timespec_get(&utc, TIME_UTC) != TIME_UTC) return 1;
    printf("timespec_get: %lld.%09ld\n", (long long)utc.tv_sec, utc.tv_nsec);
    tell_others();
    epoll_ctl(instance, EPOLL_CTL_ADD, eventfd(1, 0), &event);
    began = milliseconds();
    for (int waits = 1; waits <= 2100; waits++) {
        long before = milliseconds();
        epoll_wait(instance, &event, 1, -1);
        if (milliseconds() != before && milliseconds() - began <= 2) printf("after wait %d\n", waits);
    }
    return 0;
}
