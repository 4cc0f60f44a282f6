/* Calls that block, over two threads; poll, select and sleeps; and what descriptors tell of themselves. */
#include "trace.h"

#include <fcntl.h>
#include <poll.h>
#include <stdint.h>
#include <stdlib.h>
#include <string.h>
#include <sys/eventfd.h>
#include <sys/ioctl.h>
#include <sys/select.h>
#include <sys/socket.h>
#include <sys/stat.h>
#include <sys/timerfd.h>
#include <sys/uio.h>
#include <unistd.h>

enum { MANY = 300000 };

static int ends[2], sides[2], counter;

static void *write_late(void *nothing) {
    usleep(200000);
    if (write(ends[1], "late", 4) != 4) trace("not written");
    usleep(200000);
    if (send(sides[1], "sent", 4, MSG_NOSIGNAL) != 4) trace("not sent");
    usleep(200000);
    eventfd_write(counter, 7);
    usleep(200000);
    close(ends[1]);
    return nothing;
}

static void reads(void) {
    pthread_t thread;
    char bytes[64];
    eventfd_t value = 0;
    ssize_t count;
    pthread_create(&thread, NULL, write_late, NULL);
    count = read(ends[0], bytes, sizeof bytes);
    trace("read %zd: %.*s", count, (int)count, bytes);
    count = recv(sides[0], bytes, sizeof bytes, 0);
    trace("recv %zd: %.*s", count, (int)count, bytes);
    trace("eventfd: %ld", outcome(eventfd_read(counter, &value)));
    trace("count: %llu", (unsigned long long)value);
    trace("end: %zd", read(ends[0], bytes, sizeof bytes));
    pthread_join(thread, NULL);
    close(ends[0]);
}

static void *write_much(void *nothing) {
    char *bytes = malloc(MANY);
    for (int i = 0; i < MANY; i++) bytes[i] = (char)i;
    trace("written %zd", write(ends[1], bytes, MANY));
    close(ends[1]);
    free(bytes);
    return nothing;
}

/* More than a pipe holds comes through, in order. */
static void much(void) {
    pthread_t thread;
    char bytes[5000];
    ssize_t count;
    int sum = 0, wrong = 0;
    if (pipe(ends) != 0) trace("no pipe");
    pthread_create(&thread, NULL, write_much, NULL);
    usleep(100000);
    while ((count = read(ends[0], bytes, sizeof bytes)) > 0) {
        for (ssize_t i = 0; i < count; i++) wrong += bytes[i] != (char)(sum + i);
        sum += (int)count;
    }
    pthread_join(thread, NULL);
    trace("%d bytes, %d of them wrong", sum, wrong);
    close(ends[0]);
}

static void *read_late(void *value) {
    usleep(100000);
    trace("reads");
    eventfd_read(counter, value);
    return NULL;
}

/* A count to which 1 can be added, but not 10: the write waits for the read, though poll would show POLLOUT. */
static void brim(void) {
    pthread_t thread;
    eventfd_t before = 0, after = 0;
    eventfd_write(counter, UINT64_MAX - 5);
    pthread_create(&thread, NULL, read_late, &before);
    trace("written: %ld", outcome(eventfd_write(counter, 10)));
    pthread_join(thread, NULL);
    eventfd_read(counter, &after);
    trace("counts: %llu, %llu", (unsigned long long)before, (unsigned long long)after);
}

static void *sleep_long(void *nothing) {
    usleep(400000);
    trace("slept");
    return nothing;
}

/* A wait with a time, by each clock, that nobody ends: it is over before a longer sleep of another thread. */
static void wait_on_condition(clockid_t clock) {
    static pthread_mutex_t lock = PTHREAD_MUTEX_INITIALIZER;
    pthread_condattr_t attributes;
    pthread_cond_t never;
    pthread_t thread;
    struct timespec end;
    pthread_condattr_init(&attributes);
    pthread_condattr_setclock(&attributes, clock);
    pthread_cond_init(&never, &attributes);
    pthread_create(&thread, NULL, sleep_long, NULL);
    clock_gettime(clock, &end);
    end.tv_nsec += 200000000;
    end.tv_sec += end.tv_nsec / 1000000000;
    end.tv_nsec %= 1000000000;
    pthread_mutex_lock(&lock);
    while (pthread_cond_timedwait(&never, &lock, &end) == 0) continue;
    trace("timed out");
    pthread_mutex_unlock(&lock);
    pthread_join(thread, NULL);
    pthread_cond_destroy(&never);
    pthread_condattr_destroy(&attributes);
}

static pthread_mutex_t shared_lock = PTHREAD_MUTEX_INITIALIZER;
static pthread_cond_t shared_change = PTHREAD_COND_INITIALIZER;
static int is_changed, wakes;

static void *wait_for_change(void *nothing) {
    pthread_mutex_lock(&shared_lock);
    while (!is_changed) {
        pthread_cond_wait(&shared_change, &shared_lock);
        wakes++;
    }
    pthread_mutex_unlock(&shared_lock);
    return nothing;
}

/* Ten waits with a time that is over wake nobody who waits for the same. */
static void waits_beside(void) {
    pthread_t thread;
    int over = 0;
    pthread_create(&thread, NULL, wait_for_change, NULL);
    usleep(100000);
    pthread_mutex_lock(&shared_lock);
    for (int i = 0; i < 10; i++) {
        struct timespec end;
        clock_gettime(CLOCK_REALTIME, &end);
        end.tv_nsec += 10000000;
        end.tv_sec += end.tv_nsec / 1000000000;
        end.tv_nsec %= 1000000000;
        over += pthread_cond_timedwait(&shared_change, &shared_lock, &end) == ETIMEDOUT;
    }
    is_changed = 1;
    pthread_cond_signal(&shared_change);
    pthread_mutex_unlock(&shared_lock);
    pthread_join(thread, NULL);
    trace("%d over, the other wait woke %d times", over, wakes);
}

static void polls(void) {
    struct pollfd files[3] = {{sides[0], POLLIN, 0}, {sides[1], POLLIN | POLLOUT, 0}, {-1, POLLIN, 0}};
    int found = poll(files, 1, 100);
    trace("poll: %d, %#x", found, (unsigned int)files[0].revents);
    trace("send: %zd", send(sides[1], "x", 1, MSG_DONTWAIT));
    found = poll(files, 3, -1);
    trace("poll: %d, %#x %#x %#x", found, (unsigned int)files[0].revents, (unsigned int)files[1].revents,
          (unsigned int)files[2].revents);
    trace("nothing: %d", poll(NULL, 0, 100));
}

static void selects(void) {
    struct timeval time = {0, 100000};
    fd_set reads, writes;
    int found;
    FD_ZERO(&reads);
    FD_ZERO(&writes);
    FD_SET(counter, &reads);
    found = select(counter + 1, &reads, NULL, NULL, &time);
    trace("select: %d, %d, left %ld", found, FD_ISSET(counter, &reads), (long)time.tv_usec);
    FD_SET(sides[0], &reads);
    FD_SET(sides[1], &writes);
    FD_SET(counter, &reads);
    found = select(sides[1] + counter, &reads, &writes, NULL, NULL);
    trace("select: %d, %d %d %d", found, FD_ISSET(sides[0], &reads), FD_ISSET(sides[1], &writes),
          FD_ISSET(counter, &reads));
}

static void flags(void) {
    int copy, waiting = -1, on = 1;
    char bytes[8] = "______";
    struct iovec two[2] = {{"ab", 2}, {"cd", 2}}, apart[2] = {{bytes + 3, 3}, {bytes, 3}};
    struct stat status;
    trace("getfl: %#x", (unsigned int)fcntl(counter, F_GETFL) & (O_ACCMODE | O_NONBLOCK));
    trace("setfl: %d", fcntl(counter, F_SETFL, O_NONBLOCK));
    copy = dup(counter);
    trace("of a copy: %#x", (unsigned int)fcntl(copy, F_GETFL) & (O_ACCMODE | O_NONBLOCK));
    trace("read: %ld", outcome(read(copy, bytes, sizeof bytes)));
    trace("close-on-exec: %d", fcntl(copy, F_GETFD));
    trace("set: %d", fcntl(copy, F_SETFD, FD_CLOEXEC));
    trace("close-on-exec: %d", fcntl(copy, F_GETFD));
    trace("writev: %zd", writev(sides[1], two, 2));
    trace("fionread: %ld", outcome(ioctl(sides[0], FIONREAD, &waiting)));
    trace("waiting: %d", waiting);
    trace("fionbio: %d", ioctl(sides[0], FIONBIO, &on));
    trace("readv: %zd", readv(sides[0], apart, 2));
    trace("bytes: %.6s", bytes);
    trace("read: %ld", outcome(read(sides[0], bytes, sizeof bytes)));
    trace("shutdown: %d", shutdown(sides[1], SHUT_WR));
    trace("end: %zd", read(sides[0], bytes, sizeof bytes));
    trace("fstat: %ld", outcome(fstat(sides[0], &status)));
    trace("type: %o", status.st_mode & S_IFMT);
    trace("lseek: %ld", outcome(lseek(sides[0], 0, SEEK_CUR)));
    trace("dup2: %d", dup2(copy, counter) == counter);
    trace("close: %ld", outcome(close(copy)));
    trace("again: %ld", outcome(close(copy)));
}

/* Loops that wait for the clock to go on come to an end. */
static void spin(void) {
    long end = clock_now() + 20;
    while (clock_now() < end) continue;
    trace("spun");
    end = clock_now() + 20;
    while (clock_now() < end) usleep(0);
    trace("yielded");
    end = clock_now() + 20;
    while (clock_now() < end) poll(NULL, 0, 0);
    trace("polled");
}

static void sleeps(void) {
    struct timespec time = {0, 100000000};
    struct itimerspec value = {.it_value = {0, 100000000}};
    uint64_t expired = 0;
    int timer = timerfd_create(CLOCK_MONOTONIC, 0);
    trace("nanosleep: %d", nanosleep(&time, NULL));
    time.tv_nsec = -1;
    trace("nanosleep: %ld", outcome(nanosleep(&time, NULL)));
    trace("sleep: %u", sleep(1));
    spin();
    timerfd_settime(timer, 0, &value, NULL);
    trace("timer: %ld", outcome(read(timer, &expired, sizeof expired)));
    trace("expired: %llu", (unsigned long long)expired);
    close(timer);
}

int main(void) {
    trace("pipe: %d", pipe(ends));
    trace("socketpair: %d", socketpair(AF_UNIX, SOCK_STREAM | SOCK_CLOEXEC, 0, sides));
    counter = eventfd(0, 0);
    reads();
    much();
    brim();
    wait_on_condition(CLOCK_REALTIME);
    wait_on_condition(CLOCK_MONOTONIC);
    waits_beside();
    polls();
    selects();
    flags();
    sleeps();
    close(counter);
    close(sides[0]);
    close(sides[1]);
    return 0;
}
