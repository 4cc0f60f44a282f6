/* Descriptors from 1,024 on in poll and select, sets that are larger than the C library's, and polls of more entries
   than the program may have descriptors. */
#include "trace.h"

#include <fcntl.h>
#include <poll.h>
#include <string.h>
#include <sys/eventfd.h>
#include <sys/resource.h>
#include <sys/select.h>
#include <unistd.h>

enum { LIMIT = 1500, WORD = 64, WORDS = 32, MANY = 2000 };

static unsigned long sets[3][WORDS];
static struct pollfd files[MANY];

static void put(int set, int fd) { sets[set][fd / WORD] |= 1UL << fd % WORD; }

static int has(int set, int fd) { return (int)(sets[set][fd / WORD] >> fd % WORD & 1); }

static long choose(int most) {
    struct timeval time = {0, 10000};
    return outcome(select(most, (fd_set *)sets[0], (fd_set *)sets[1], (fd_set *)sets[2], &time));
}

static void selects(int low, int high) {
    put(0, low);
    put(0, high);
    put(1, high);
    put(1, LIMIT + 400);
    trace("of two: %ld", choose(high + 1));
    trace("low %d, high %d and %d, beyond %d", has(0, low), has(0, high), has(1, high), has(1, LIMIT + 400));
    memset(sets, 0, sizeof sets);
    put(0, high);
    trace("too few: %ld", choose(high));
    trace("left in the sets: %d", has(0, high));
    memset(sets, 0, sizeof sets);
    put(0, low);
    trace("none: %ld", choose(high + 1));
    trace("left in the sets: %d", has(0, low));
    trace("no count: %ld", choose(-1));
    trace("a large count: %ld", outcome(select(1 << 30, NULL, NULL, NULL, &(struct timeval){0, 0})));
}

static long poll_all(int fd, int count) {
    for (int i = 0; i < count; i++) files[i] = (struct pollfd){i % 2 ? fd : -1, POLLIN | POLLOUT, 7};
    return outcome(poll(files, (nfds_t)count, 0));
}

int main(void) {
    struct rlimit limit = {LIMIT, LIMIT};
    int low = eventfd(0, 0), counter = eventfd(1, 0), high, null = open("/dev/null", O_RDWR);
    trace("limit: %d", setrlimit(RLIMIT_NOFILE, &limit));
    high = fcntl(counter, F_DUPFD, 1100);
    trace("high: %d", high >= 1100);
    selects(low, high);
    trace("poll of %d: %ld", LIMIT, poll_all(high, LIMIT));
    trace("the last: %#x", (unsigned int)files[LIMIT - 1].revents);
    trace("of real ones: %ld", poll_all(null, LIMIT));
    trace("the first two: %#x %#x", (unsigned int)files[0].revents, (unsigned int)files[1].revents);
    trace("of more: %ld", poll_all(high, LIMIT + 1));
    trace("of none: %ld", poll_all(-1, MANY));
    usleep(1000);
    trace("end");
    return 0;
}
