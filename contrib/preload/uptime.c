/* How long the machine has been up, and the time of day, as older functions tell them: by the simulated clock. What
   they tell of processors and of memory is real. */
#include "preload.h"

#include <sys/sysinfo.h>
#include <sys/timeb.h>
#include <sys/times.h>

FORWARD(sysinfo)
FORWARD(times)

static struct timespec ask(clockid_t clock) {
    struct timespec now;
    clock_gettime(clock, &now);
    return now;
}

/* In ticks, of which a second has _SC_CLK_TCK. */
clock_t times(struct tms *used) {
    long ticks = sysconf(_SC_CLK_TCK);
    struct timespec now = ask(CLOCK_MONOTONIC);
    if (!WRITABLE_OR_NULL(used)) return plain_answer(-EFAULT);
    if (next_times()(used) == (clock_t)-1) return -1;
    return now.tv_sec * ticks + now.tv_nsec / (1000000000 / ticks);
}

int sysinfo(struct sysinfo *told) {
    int status = next_sysinfo()(told);
    if (status == 0) told->uptime = ask(CLOCK_BOOTTIME).tv_sec;
    return status;
}

int ftime(struct timeb *told) {
    struct timespec now = ask(CLOCK_REALTIME);
    if (!WRITABLE(told)) return (int)plain_answer(-EFAULT);
    *told = (struct timeb){.time = now.tv_sec, .millitm = (unsigned short)(now.tv_nsec / 1000000)};
    return 0;
}
