/* What the C client hands on. The expected answers are those of examples/ and docs/calls.md. */
#define _GNU_SOURCE
#include "nippersage_client.h"
#include <sys/stat.h>

static int failures;

static void expect(int holds, const char *text, int line) {
    if (holds) return;
    fprintf(stderr, "test_nippersage.c:%d: %s\n", line, text);
    failures++;
}
#define EXPECT(test) expect((test), #test, __LINE__)

static long long nanoseconds(struct timespec time) { return time.tv_sec * 1000000000LL + time.tv_nsec; }

static void level_triggered(const char *path) {
    struct nippersage kernel;
    struct nippersage_report reports[8];
    int ends[2];
    char bytes[3];
    EXPECT(nippersage_start(&kernel, path, NULL) == 0);
    EXPECT(nippersage_pipe(&kernel, 0, ends) == 0 && ends[0] == 3 && ends[1] == 4);
    EXPECT(nippersage_epoll(&kernel, 0) == 5);
    EXPECT(nippersage_ctl(&kernel, 5, NIPPERSAGE_ADD, 3, NIPPERSAGE_IN, 3) == 0);
    EXPECT(nippersage_write(&kernel, 4, "abc", 3) == 3);
    EXPECT(nippersage_wait(&kernel, 5, reports, 8, 0) == 1);
    EXPECT(reports[0].bits == NIPPERSAGE_IN && reports[0].data == 3);
    EXPECT(nippersage_read(&kernel, 3, bytes, 3) == 3 && memcmp(bytes, "abc", 3) == 0);
    EXPECT(nippersage_wait(&kernel, 5, reports, 8, 0) == 0);
    EXPECT(nippersage_ctl(&kernel, 5, NIPPERSAGE_DEL, 3, 0, 0) == 0);
    EXPECT(nippersage_ctl(&kernel, 5, NIPPERSAGE_MOD, 3, 0, 0) == -ENOENT);
    EXPECT(nippersage_end(&kernel) == 0);
}

static void parked_callers(const char *path) {
    struct nippersage kernel;
    struct nippersage_report reports[8];
    struct itimerspec set = {.it_value = {0, 5000}, .it_interval = {0, 2000}}, time = {.it_value = {9, 9}};
    struct timespec four = {0, 4000}, five = {0, 5000};
    unsigned char count[8];
    EXPECT(nippersage_start(&kernel, path, NULL) == 0);
    EXPECT(nippersage_timerfd(&kernel, 1, 0) == 3 && nippersage_epoll(&kernel, 0) == 4);
    EXPECT(nippersage_ctl(&kernel, 4, NIPPERSAGE_ADD, 3, NIPPERSAGE_IN | NIPPERSAGE_ET, UINT64_MAX) == 0);
    EXPECT(nippersage_settime(&kernel, 3, 0, &set, &time) == 0);
    EXPECT(nanoseconds(time.it_value) == 0 && nanoseconds(time.it_interval) == 0);
    kernel.by = 1;
    EXPECT(nippersage_wait(&kernel, 4, reports, 8, -1) == NIPPERSAGE_PARKED);
    EXPECT(nippersage_close(&kernel, 3) == -EBUSY);
    EXPECT(nippersage_tick(&kernel, &four) == 0);
    EXPECT(nippersage_resume(&kernel, reports, 8) == NIPPERSAGE_PARKED);
    kernel.by = 0;
    EXPECT(nippersage_gettime(&kernel, 3, &time) == 0);
    EXPECT(nanoseconds(time.it_value) == 1000 && nanoseconds(time.it_interval) == 2000);
    EXPECT(nippersage_tick(&kernel, &five) == 0);
    kernel.by = 1;
    EXPECT(nippersage_resume(&kernel, reports, 8) == 1);
    EXPECT(reports[0].bits == NIPPERSAGE_IN && reports[0].data == UINT64_MAX);
    EXPECT(nippersage_resume(&kernel, reports, 8) == -EINVAL);
    EXPECT(nippersage_read(&kernel, 3, count, 8) == 8 && count[0] == 3 && count[1] == 0);
    EXPECT(nippersage_end(&kernel) == 0);
}

/* A timer of a microsecond, what is finer, and the last moment of the clock. */
static void timers(const char *path) {
    struct nippersage kernel;
    struct itimerspec set = {.it_value = {0, 1}}, time;
    struct timespec none = {0, 0}, least = {0, 1}, last = {1000000000, 0};
    unsigned char count[8];
    EXPECT(nippersage_start(&kernel, path, NULL) == 0 && nippersage_timerfd(&kernel, 1, 0) == 3);
    EXPECT(nippersage_settime(&kernel, 3, 0, &set, NULL) == 0 && nippersage_tick(&kernel, &none) == 0);
    EXPECT(nippersage_read(&kernel, 3, count, 8) == -EAGAIN);
    EXPECT(nippersage_gettime(&kernel, 3, &time) == 0 && nanoseconds(time.it_value) == 1000);
    EXPECT(nippersage_tick(&kernel, &least) == 0 && nippersage_read(&kernel, 3, count, 8) == 8 && count[0] == 1);
    EXPECT(nippersage_tick(&kernel, &last) == -EINVAL);
    set.it_value.tv_sec = 1000000000;
    EXPECT(nippersage_settime(&kernel, 3, 0, &set, NULL) == -EINVAL);
    set.it_value.tv_sec = 18446744073710; /* above 2^64 microseconds by less than half a second */
    EXPECT(nippersage_settime(&kernel, 3, 0, &set, NULL) == -EINVAL);
    EXPECT(nippersage_tick(&kernel, &set.it_value) == -EINVAL);
    set.it_value = (struct timespec){1, 500};
    set.it_interval = last;
    EXPECT(nippersage_settime(&kernel, 3, 0, &set, NULL) == 0 && nippersage_gettime(&kernel, 3, &time) == 0);
    EXPECT(time.it_value.tv_sec == 1 && time.it_value.tv_nsec == 1000);
    EXPECT(time.it_interval.tv_sec == 1000000000 && time.it_interval.tv_nsec == 0);
    EXPECT(nippersage_end(&kernel) == 0);
}

/* What is no time is refused as by the manual pages, and nothing is sent. */
static void no_times(const char *path) {
    static const struct timespec times[] = {{-1, 0}, {0, -1}, {0, 1000000000}};
    struct nippersage kernel;
    struct nippersage_report report;
    EXPECT(nippersage_start(&kernel, path, NULL) == 0);
    for (size_t i = 0; i < sizeof times / sizeof *times; i++) {
        struct itimerspec value = {.it_value = times[i]}, interval = {.it_value = {1, 0}, .it_interval = times[i]};
        EXPECT(nippersage_settime(&kernel, 3, 0, &value, NULL) == -EINVAL);
        EXPECT(nippersage_settime(&kernel, 3, 0, &interval, NULL) == -EINVAL);
        EXPECT(nippersage_tick(&kernel, &times[i]) == -EINVAL);
        EXPECT(nippersage_pwait2(&kernel, 3, &report, 1, &times[i]) == -EINVAL);
    }
    EXPECT(kernel.calls == 0);
    EXPECT(nippersage_end(&kernel) == 0);
}

/* A wait of `milliseconds`, or of `time` if these are 0, ends after `before` and a microsecond more, and not sooner. */
static void wait_ends(const char *path, int64_t milliseconds, struct timespec time, struct timespec before) {
    struct nippersage kernel;
    struct nippersage_report report;
    struct timespec step = {0, 1000};
    int result;
    EXPECT(nippersage_start(&kernel, path, NULL) == 0 && nippersage_epoll(&kernel, 0) == 3);
    if (milliseconds != 0) result = nippersage_wait(&kernel, 3, &report, 1, milliseconds);
    else result = nippersage_pwait2(&kernel, 3, &report, 1, &time);
    EXPECT(result == NIPPERSAGE_PARKED && nippersage_tick(&kernel, &before) == 0);
    EXPECT(nippersage_resume(&kernel, &report, 1) == NIPPERSAGE_PARKED && nippersage_tick(&kernel, &step) == 0);
    EXPECT(nippersage_resume(&kernel, &report, 1) == 0);
    EXPECT(nippersage_end(&kernel) == 0);
}

/* Those without a deadline, and those that are longer than the clock goes. */
static void wait_never_ends(const char *path, int64_t milliseconds, const struct timespec *time) {
    struct nippersage kernel;
    struct nippersage_report report;
    struct timespec last = {1000000000, 0};
    int result;
    EXPECT(nippersage_start(&kernel, path, NULL) == 0 && nippersage_epoll(&kernel, 0) == 3);
    if (milliseconds != 0) result = nippersage_wait(&kernel, 3, &report, 1, milliseconds);
    else result = nippersage_pwait2(&kernel, 3, &report, 1, time);
    EXPECT(result == NIPPERSAGE_PARKED && nippersage_tick(&kernel, &last) == 0);
    EXPECT(nippersage_resume(&kernel, &report, 1) == NIPPERSAGE_PARKED);
    EXPECT(nippersage_end(&kernel) == 0);
}

static void timeouts(const char *path) {
    struct timespec none = {0, 0}, beyond = {18446744073710, 0};
    wait_ends(path, 5, none, (struct timespec){0, 4999000});
    wait_ends(path, INT32_MAX, none, (struct timespec){2147483, 646999000});
    wait_ends(path, 1000000000000, none, (struct timespec){999999999, 999999000});
    wait_ends(path, 0, (struct timespec){0, 1}, none);
    wait_ends(path, 0, (struct timespec){2200, 0}, (struct timespec){2199, 999999000});
    wait_never_ends(path, -1, NULL);
    wait_never_ends(path, INT64_MIN, NULL);
    wait_never_ends(path, INT64_MAX, NULL);
    wait_never_ends(path, 18446744073709552, NULL); /* above 2^64 microseconds by less than a millisecond */
    wait_never_ends(path, 0, NULL);
    wait_never_ends(path, 0, &beyond);
}

/* Two callers, each at an instance of its own with an exclusive registration of one counter: a write wakes one. */
static void exclusive(const char *path) {
    struct nippersage kernel;
    struct nippersage_report reports[8];
    uint32_t mask = NIPPERSAGE_IN | NIPPERSAGE_EXCLUSIVE;
    EXPECT(nippersage_start(&kernel, path, NULL) == 0);
    EXPECT(nippersage_eventfd(&kernel, 0, 0, 0) == 3);
    EXPECT(nippersage_epoll(&kernel, 0) == 4 && nippersage_epoll(&kernel, 0) == 5);
    EXPECT(nippersage_ctl(&kernel, 4, NIPPERSAGE_ADD, 3, mask, 4) == 0);
    EXPECT(nippersage_ctl(&kernel, 5, NIPPERSAGE_ADD, 3, mask, 5) == 0);
    EXPECT(nippersage_ctl(&kernel, 5, NIPPERSAGE_ADD, 3, mask, 5) == -EEXIST);
    EXPECT(nippersage_ctl(&kernel, 5, NIPPERSAGE_ADD, 3, mask | NIPPERSAGE_ONESHOT, 5) == -EINVAL);
    EXPECT(nippersage_ctl(&kernel, 5, NIPPERSAGE_ADD, 4, mask, 5) == -EINVAL);
    EXPECT(nippersage_ctl(&kernel, 5, NIPPERSAGE_MOD, 3, mask, 5) == -EINVAL);
    EXPECT(nippersage_ctl(&kernel, 5, NIPPERSAGE_MOD, 3, NIPPERSAGE_IN, 5) == -EINVAL);
    kernel.by = 1;
    EXPECT(nippersage_wait(&kernel, 4, reports, 8, -1) == NIPPERSAGE_PARKED);
    kernel.by = 2;
    EXPECT(nippersage_wait(&kernel, 5, reports, 8, -1) == NIPPERSAGE_PARKED);
    kernel.by = 0;
    EXPECT(nippersage_write(&kernel, 3, "\1\0\0\0\0\0\0", 8) == 8);
    kernel.by = 2;
    EXPECT(nippersage_resume(&kernel, reports, 8) == NIPPERSAGE_PARKED);
    kernel.by = 1;
    EXPECT(nippersage_resume(&kernel, reports, 8) == 1 && reports[0].data == 4);
    EXPECT(nippersage_write(&kernel, 3, "\1\0\0\0\0\0\0", 8) == 8);
    kernel.by = 2;
    EXPECT(nippersage_resume(&kernel, reports, 8) == 1 && reports[0].data == 5);
    EXPECT(nippersage_end(&kernel) == 0);
}

static void processes(const char *path) {
    struct nippersage kernel;
    struct nippersage_report reports[2];
    int ends[2];
    EXPECT(nippersage_start(&kernel, path, NULL) == 0);
    EXPECT(nippersage_pipe(&kernel, 1, ends) == 0 && nippersage_epoll(&kernel, 0) == 5);
    EXPECT(nippersage_dup(&kernel, 3) == 6 && nippersage_fork(&kernel) == 2);
    EXPECT(nippersage_ctl(&kernel, 5, NIPPERSAGE_ADD, 3, NIPPERSAGE_IN, 1) == 0);
    EXPECT(nippersage_ctl(&kernel, 5, NIPPERSAGE_ADD, 6, NIPPERSAGE_IN, 2) == 0);
    EXPECT(nippersage_fill(&kernel, 4, 'a', 5) == 5);
    EXPECT(nippersage_wait(&kernel, 5, reports, 2, 0) == 2);
    EXPECT(nippersage_exec(&kernel) == 0 && nippersage_close(&kernel, 3) == -EBADF);
    EXPECT(nippersage_dup2(&kernel, 6, 9) == 9);
    kernel.pid = 2;
    EXPECT(nippersage_exit(&kernel) == 0 && nippersage_close(&kernel, 0) == -ESRCH);
    EXPECT(nippersage_end(&kernel) == 0);
}

static void other_objects(const char *path) {
    struct nippersage kernel;
    int ends[2];
    struct nippersage_name name = {"v4", 7};
    char bytes[8];
    EXPECT(nippersage_start(&kernel, path, "16,16,2,8,4096,4") == 0);
    EXPECT(nippersage_socketpair(&kernel, 0, ends) == 0 && ends[1] == 4);
    EXPECT(nippersage_write(&kernel, 3, "abcde", 5) == 4 && nippersage_shutdown(&kernel, 3, SHUT_WR) == 0);
    EXPECT(nippersage_write(&kernel, 3, "a", 1) == -EPIPE);
    EXPECT(nippersage_peek(&kernel, 4, bytes, 2) == 2 && bytes[1] == 'b' && nippersage_take_error(&kernel, 4) == 0);
    EXPECT(nippersage_read(&kernel, 4, bytes, 8) == 4 && nippersage_read(&kernel, 4, bytes, 8) == 0);
    EXPECT(nippersage_shutdown(&kernel, 3, SHUT_RD) == 0 && nippersage_write(&kernel, 4, "a", 1) == -EPIPE);
    EXPECT(nippersage_shutdown(&kernel, 4, SHUT_RDWR) == 0 && nippersage_shutdown(&kernel, 4, 3) == -EINVAL);
    EXPECT(nippersage_sockname(&kernel, 3, &name) == 0 && nippersage_peername(&kernel, 3, &name) == 0 && name.number == 7);
    EXPECT(nippersage_sockname(&kernel, 0, &name) == -ENOTSOCK && nippersage_peername(&kernel, 9, &name) == -EBADF);
    EXPECT(nippersage_eventfd(&kernel, 2, 1, 0) == 5);
    EXPECT(nippersage_read(&kernel, 5, bytes, 8) == 8 && bytes[0] == 1);
    EXPECT(nippersage_plain(&kernel, 0) == 6 && nippersage_shutdown(&kernel, 6, SHUT_WR) == -ENOTSOCK);
    EXPECT(nippersage_end(&kernel) == 0);
}

static void is_named(struct nippersage *kernel, int fd, const char *space, uint32_t number) {
    struct nippersage_name name = {"", 7};
    EXPECT(nippersage_sockname(kernel, fd, &name) == 1 && strcmp(name.space, space) == 0 && name.number == number);
}

/* The bits that a socket shows. */
static uint32_t shown_at(struct nippersage *kernel, int fd) {
    struct nippersage_report found = {0, 0};
    int ep = nippersage_epoll(kernel, 0);
    EXPECT(nippersage_ctl(kernel, ep, NIPPERSAGE_ADD, fd, NIPPERSAGE_IN | NIPPERSAGE_OUT | NIPPERSAGE_RDHUP, 0) == 0);
    EXPECT(nippersage_wait(kernel, ep, &found, 1, 0) == 1 && nippersage_close(kernel, ep) == 0);
    return found.bits;
}

static void new_sockets(const char *path) {
    struct nippersage_name name;
    struct nippersage kernel;
    char bytes[8];
    EXPECT(nippersage_start(&kernel, path, "6,4,2,8,4096,4096") == 0);
    EXPECT(nippersage_socket(&kernel, AF_INET, 1) == 3 && nippersage_socket(&kernel, AF_UNIX, 0) == 4);
    EXPECT(nippersage_socket(&kernel, -1, 0) == -EAFNOSUPPORT);
    EXPECT(nippersage_read(&kernel, 3, bytes, 8) == -ENOTCONN && nippersage_peek(&kernel, 4, bytes, 8) == -EINVAL);
    EXPECT(nippersage_write(&kernel, 3, "a", 1) == -EPIPE && nippersage_write(&kernel, 4, "a", 1) == -ENOTCONN);
    EXPECT(nippersage_shutdown(&kernel, 3, SHUT_WR) == -ENOTCONN && nippersage_take_error(&kernel, 4) == 0);
    EXPECT(nippersage_sockname(&kernel, 3, &name) == 0 && nippersage_peername(&kernel, 3, &name) == -ENOTCONN);
    EXPECT(shown_at(&kernel, 4) == (NIPPERSAGE_OUT | NIPPERSAGE_HUP));
    EXPECT(nippersage_socket(&kernel, AF_INET6, 0) == 5 && nippersage_socket(&kernel, AF_INET, 0) == -EMFILE);
    EXPECT(nippersage_exec(&kernel) == 0 && nippersage_sockname(&kernel, 3, &name) == -EBADF);
    EXPECT(nippersage_end(&kernel) == 0);
    EXPECT(nippersage_start(&kernel, path, "6,1,2,8,4096,4096") == 0);
    EXPECT(nippersage_socket(&kernel, AF_INET, 0) == -ENFILE && nippersage_end(&kernel) == 0);
}

static void names_given(const char *path) {
    static const struct nippersage_name port = {"v4", 80}, other = {"v4", 81}, any = {"local", 0};
    static const struct nippersage_name last = {"v6", 65535}, past = {"v6", 65536}, none = {"v5", 80};
    static const struct nippersage_name longer = {"local\"v4", 1};
    struct nippersage kernel;
    EXPECT(nippersage_start(&kernel, path, NULL) == 0);
    EXPECT(nippersage_socket(&kernel, AF_INET, 0) == 3 && nippersage_socket(&kernel, AF_INET6, 0) == 4);
    EXPECT(nippersage_bind(&kernel, 3, &any) == -EAFNOSUPPORT && nippersage_bind(&kernel, 3, &port) == 0);
    is_named(&kernel, 3, "v4", 80);
    EXPECT(nippersage_bind(&kernel, 3, &other) == -EINVAL && nippersage_bind(&kernel, 4, &port) == -EADDRINUSE);
    EXPECT(nippersage_bind(&kernel, 4, &past) == NIPPERSAGE_RANGE && nippersage_bind(&kernel, 4, &none) == -EINVAL);
    EXPECT(nippersage_connect(&kernel, 4, &past) == NIPPERSAGE_RANGE);
    EXPECT(nippersage_connect(&kernel, 4, &longer) == -EINVAL && nippersage_bind(&kernel, 4, &last) == 0);
    is_named(&kernel, 4, "v6", 65535);
    EXPECT(nippersage_socket(&kernel, AF_UNIX, 0) == 5);
    EXPECT(nippersage_bind(&kernel, 5, &port) == -EINVAL && nippersage_bind(&kernel, 5, &any) == 0);
    is_named(&kernel, 5, "local", 32768);
    EXPECT(nippersage_bind(&kernel, 0, &port) == -ENOTSOCK && nippersage_bind(&kernel, 9, &port) == -EBADF);
    EXPECT(nippersage_end(&kernel) == 0);
}

/* A connect that finds nobody, and what it leaves. */
static void failed_connects(const char *path) {
    static const struct nippersage_name port = {"v4", 80}, local = {"local", 7};
    const uint32_t left = NIPPERSAGE_IN | NIPPERSAGE_OUT | NIPPERSAGE_HUP | NIPPERSAGE_RDHUP;
    struct nippersage kernel;
    char bytes[8];
    EXPECT(nippersage_start(&kernel, path, NULL) == 0 && nippersage_socket(&kernel, AF_INET, 0) == 3);
    EXPECT(nippersage_connect(&kernel, 3, &local) == -EAFNOSUPPORT);
    EXPECT(nippersage_connect(&kernel, 3, &port) == -EINPROGRESS);
    EXPECT(shown_at(&kernel, 3) == (left | NIPPERSAGE_ERR));
    is_named(&kernel, 3, "v4", 32768);
    EXPECT(nippersage_take_error(&kernel, 3) == 111 && nippersage_take_error(&kernel, 3) == 0);
    EXPECT(shown_at(&kernel, 3) == left && nippersage_read(&kernel, 3, bytes, 8) == 0);
    EXPECT(nippersage_write(&kernel, 3, "a", 1) == -EPIPE && nippersage_bind(&kernel, 3, &port) == -EINVAL);
    EXPECT(nippersage_connect(&kernel, 3, &local) == -ECONNABORTED);
    EXPECT(shown_at(&kernel, 3) == (NIPPERSAGE_OUT | NIPPERSAGE_HUP));
    EXPECT(nippersage_connect(&kernel, 3, &port) == -EINPROGRESS);
    EXPECT(nippersage_connect(&kernel, 3, &port) == -ECONNREFUSED);
    EXPECT(nippersage_socket(&kernel, AF_UNIX, 0) == 4 && nippersage_bind(&kernel, 4, &local) == 0);
    EXPECT(nippersage_connect(&kernel, 4, &local) == -ECONNREFUSED);
    EXPECT(nippersage_connect(&kernel, 4, &port) == -EINVAL && nippersage_take_error(&kernel, 4) == 0);
    EXPECT(nippersage_connect(&kernel, 0, &port) == -ENOTSOCK && nippersage_connect(&kernel, 9, &port) == -EBADF);
    EXPECT(nippersage_end(&kernel) == 0);
}

/* Of the calls that find an error the first tells it, and the next connect that it was taken. */
static void taken_errors(const char *path) {
    static const struct nippersage_name port = {"v6", 80};
    struct nippersage kernel;
    char bytes[8];
    EXPECT(nippersage_start(&kernel, path, NULL) == 0 && nippersage_socket(&kernel, AF_INET, 0) == 3);
    EXPECT(nippersage_connect(&kernel, 3, &port) == -EINPROGRESS);
    EXPECT(nippersage_read(&kernel, 3, bytes, 0) == 0 && nippersage_read(&kernel, 3, bytes, 8) == -ECONNREFUSED);
    EXPECT(nippersage_read(&kernel, 3, bytes, 8) == 0 && nippersage_take_error(&kernel, 3) == 0);
    EXPECT(nippersage_connect(&kernel, 3, &port) == -ECONNABORTED);
    EXPECT(nippersage_connect(&kernel, 3, &port) == -EINPROGRESS);
    EXPECT(nippersage_peek(&kernel, 3, bytes, 8) == -ECONNREFUSED && nippersage_take_error(&kernel, 3) == 0);
    EXPECT(nippersage_connect(&kernel, 3, &port) == -ECONNABORTED);
    EXPECT(nippersage_connect(&kernel, 3, &port) == -EINPROGRESS);
    EXPECT(nippersage_write(&kernel, 3, "a", 1) == -ECONNREFUSED && nippersage_take_error(&kernel, 3) == 0);
    EXPECT(nippersage_end(&kernel) == 0);
}

/* A file shows no bit. */
static void shows_nothing(struct nippersage *kernel, int fd) {
    struct nippersage_report found;
    int ep = nippersage_epoll(kernel, 0);
    uint32_t asked = NIPPERSAGE_IN | NIPPERSAGE_OUT | NIPPERSAGE_PRI | NIPPERSAGE_RDHUP;
    EXPECT(nippersage_ctl(kernel, ep, NIPPERSAGE_ADD, fd, asked, 0) == 0);
    EXPECT(nippersage_wait(kernel, ep, &found, 1, 0) == 0 && nippersage_close(kernel, ep) == 0);
}

/* A new kernel with a listener of TCP at 3, and a Unix one at 4. */
static void with_listeners(struct nippersage *kernel, const char *path) {
    static const struct nippersage_name port = {"v4", 80}, local = {"local", 7};
    EXPECT(nippersage_start(kernel, path, NULL) == 0);
    EXPECT(nippersage_socket(kernel, AF_INET, 0) == 3 && nippersage_socket(kernel, AF_UNIX, 0) == 4);
    EXPECT(nippersage_listen(kernel, 4, 5) == -EINVAL && shown_at(kernel, 4) == (NIPPERSAGE_OUT | NIPPERSAGE_HUP));
    EXPECT(nippersage_bind(kernel, 3, &port) == 0 && nippersage_bind(kernel, 4, &local) == 0);
    EXPECT(nippersage_listen(kernel, 3, 5) == 0 && nippersage_listen(kernel, 4, 5) == 0);
}

static void listens(const char *path) {
    static const struct nippersage_name port = {"v6", 80};
    struct nippersage kernel;
    int ends[2];
    with_listeners(&kernel, path);
    EXPECT(nippersage_listen(&kernel, 3, INT32_MAX) == 0 && nippersage_listen(&kernel, 4, INT32_MIN) == 0);
    EXPECT(nippersage_socket(&kernel, AF_INET, 0) == 5 && nippersage_listen(&kernel, 5, 0) == 0);
    is_named(&kernel, 3, "v4", 80);
    is_named(&kernel, 4, "local", 7);
    is_named(&kernel, 5, "v4", 32768);
    shows_nothing(&kernel, 3);
    shows_nothing(&kernel, 4);
    EXPECT(nippersage_listen(&kernel, 0, 5) == -ENOTSOCK && nippersage_listen(&kernel, 9, 5) == -EBADF);
    EXPECT(nippersage_socketpair(&kernel, 0, ends) == 0 && nippersage_listen(&kernel, ends[0], 5) == -EINVAL);
    EXPECT(nippersage_socket(&kernel, AF_INET, 0) == 8 && nippersage_connect(&kernel, 8, &port) == -EINPROGRESS);
    EXPECT(nippersage_listen(&kernel, 8, 5) == -EINVAL && nippersage_take_error(&kernel, 8) == 111);
    EXPECT(nippersage_listen(&kernel, 8, 5) == -EINVAL && nippersage_connect(&kernel, 8, &port) == -ECONNABORTED);
    EXPECT(nippersage_listen(&kernel, 8, 5) == 0 && nippersage_end(&kernel) == 0);
}

static void of_listeners(const char *path) {
    static const struct nippersage_name port = {"v4", 80}, local = {"local", 7}, other = {"local", 9};
    struct nippersage_name name;
    struct nippersage kernel;
    char bytes[8];
    with_listeners(&kernel, path);
    EXPECT(nippersage_read(&kernel, 3, bytes, 1) == -ENOTCONN && nippersage_peek(&kernel, 4, bytes, 1) == -EINVAL);
    EXPECT(nippersage_write(&kernel, 3, "a", 1) == -EPIPE && nippersage_write(&kernel, 4, "a", 1) == -ENOTCONN);
    EXPECT(nippersage_read(&kernel, 3, bytes, 0) == 0 && nippersage_write(&kernel, 4, "a", 0) == 0);
    EXPECT(nippersage_shutdown(&kernel, 3, SHUT_RD) == -ENOTCONN && nippersage_take_error(&kernel, 4) == 0);
    EXPECT(nippersage_peername(&kernel, 4, &name) == -ENOTCONN && nippersage_bind(&kernel, 3, &local) == -EAFNOSUPPORT);
    EXPECT(nippersage_bind(&kernel, 3, &port) == -EINVAL && nippersage_bind(&kernel, 4, &other) == -EINVAL);
    EXPECT(nippersage_connect(&kernel, 3, &local) == -EISCONN && nippersage_connect(&kernel, 4, &port) == -EINVAL);
    EXPECT(nippersage_connect(&kernel, 4, &other) == -ECONNREFUSED);
    EXPECT(nippersage_connect(&kernel, 4, &local) == -EINVAL && nippersage_end(&kernel) == 0);
}

/* Nobody gets through to a listener. */
static void connects_to_listeners(const char *path) {
    static const struct nippersage_name port = {"v4", 80}, local = {"local", 7}, other = {"local", 9};
    struct nippersage_name name;
    struct nippersage kernel;
    int ends[2];
    with_listeners(&kernel, path);
    EXPECT(nippersage_socket(&kernel, AF_INET, 0) == 5 && nippersage_connect(&kernel, 5, &port) == -EINVAL);
    EXPECT(nippersage_connect(&kernel, 5, &local) == -EAFNOSUPPORT && nippersage_sockname(&kernel, 5, &name) == 0);
    EXPECT(nippersage_bind(&kernel, 5, &port) == -EADDRINUSE);
    EXPECT(nippersage_socket(&kernel, AF_UNIX, 0) == 6 && nippersage_connect(&kernel, 6, &local) == -EINVAL);
    EXPECT(nippersage_connect(&kernel, 6, &other) == -ECONNREFUSED);
    EXPECT(nippersage_socketpair(&kernel, 0, ends) == 0 && nippersage_connect(&kernel, ends[0], &local) == -EISCONN);
    EXPECT(nippersage_connect(&kernel, ends[0], &other) == -ECONNREFUSED);
    EXPECT(nippersage_connect(&kernel, ends[0], &port) == -EINVAL);
    EXPECT(nippersage_close(&kernel, 3) == 0 && nippersage_bind(&kernel, 5, &port) == 0);
    EXPECT(nippersage_end(&kernel) == 0);
}

static void accepts(const char *path) {
    struct nippersage kernel;
    with_listeners(&kernel, path);
    EXPECT(nippersage_accept(&kernel, 3, 0) == -EAGAIN && nippersage_accept(&kernel, 4, 1) == -EAGAIN);
    EXPECT(nippersage_socket(&kernel, AF_INET, 0) == 5 && nippersage_accept(&kernel, 5, 0) == -EINVAL);
    EXPECT(nippersage_accept(&kernel, 0, 0) == -ENOTSOCK && nippersage_accept(&kernel, 9, 0) == -EBADF);
    EXPECT(nippersage_end(&kernel) == 0);
    EXPECT(nippersage_start(&kernel, path, "4,9,2,8,4096,4096") == 0);
    EXPECT(nippersage_socket(&kernel, AF_INET, 0) == 3 && nippersage_listen(&kernel, 3, 5) == 0);
    EXPECT(nippersage_accept(&kernel, 3, 0) == -EMFILE && nippersage_accept(&kernel, 0, 0) == -EMFILE);
    EXPECT(nippersage_end(&kernel) == 0);
    EXPECT(nippersage_start(&kernel, path, "9,2,2,8,4096,4096") == 0);
    EXPECT(nippersage_socket(&kernel, AF_INET, 0) == 3 && nippersage_accept(&kernel, 3, 0) == -ENFILE);
    EXPECT(nippersage_accept(&kernel, 0, 0) == -ENOTSOCK && nippersage_end(&kernel) == 0);
}

/* A line of a history has this call. */
static void has_call(const char *history, int place, const char *call) {
    char line[256] = "";
    FILE *kept = fopen(history, "r");
    while (kept && place-- >= 0 && fgets(line, sizeof line, kept)) continue;
    EXPECT(strstr(line, call) != NULL);
    if (kept) fclose(kept);
}

/* The backlog and the flag get to the kernel, though nothing shows them yet. */
static void asks_of_listeners(const char *path) {
    struct nippersage kernel;
    EXPECT(nippersage_start_recording(&kernel, path, NULL, "asked.history") == 0);
    EXPECT(nippersage_socket(&kernel, AF_INET, 0) == 3 && nippersage_listen(&kernel, 3, -7) == 0);
    EXPECT(nippersage_accept(&kernel, 3, 1) == -EAGAIN && nippersage_accept(&kernel, 3, 0) == -EAGAIN);
    EXPECT(nippersage_end(&kernel) == 0);
    has_call("asked.history", 1, "{\"backlog\":-7,\"fd\":3,\"op\":\"listen\"}");
    has_call("asked.history", 2, "{\"cloexec\":true,\"fd\":3,\"op\":\"accept\"}");
    has_call("asked.history", 3, "{\"cloexec\":false,\"fd\":3,\"op\":\"accept\"}");
}

static void no_answer_of_the_kernel(const char *path) {
    static const char many[40000];
    struct nippersage kernel;
    struct timespec none = {0, 0};
    EXPECT(nippersage_start(&kernel, path, NULL) == 0);
    EXPECT(nippersage_write(&kernel, 1, many, sizeof many) == NIPPERSAGE_LINE);
    EXPECT(nippersage_fill(&kernel, 1, 'a', 1048577) == NIPPERSAGE_RANGE);
    while (kernel.calls < 99999) {
        if (nippersage_tick(&kernel, &none) != 0) break;
    }
    EXPECT(kernel.calls == 99999);
    EXPECT(nippersage_tick(&kernel, &none) == NIPPERSAGE_CALLS);
    EXPECT(nippersage_end(&kernel) == 0);
    EXPECT(nippersage_start(&kernel, path, "1,1,1,1,1,1") == 0);
    EXPECT(nippersage_tick(&kernel, &none) == NIPPERSAGE_ENDED);
    EXPECT(WEXITSTATUS(nippersage_end(&kernel)) == 2);
}

/* A program of before the header takes that for a line that is no command. This one is made in the folder at hand. */
static void older(void) {
    struct nippersage kernel;
    int ends[2];
    FILE *program = fopen("older", "w");
    EXPECT(program && fputs("#!/bin/sh\nread line; echo '{\"bad\":1}'; cat >/dev/null\n", program) >= 0);
    EXPECT(fclose(program) == 0 && chmod("older", 0700) == 0);
    EXPECT(nippersage_start(&kernel, "./older", NULL) == 0);
    EXPECT(nippersage_pipe(&kernel, 0, ends) == NIPPERSAGE_OLDER);
    EXPECT(nippersage_end(&kernel) == 0);
}

/* No program: a start fails at once, and leaves neither a child nor a descriptor. */
static void no_program(void) {
    struct nippersage kernel;
    int before = open("/dev/null", O_RDONLY), after;
    FILE *text = fopen("text", "w");
    EXPECT(close(before) == 0 && text && fclose(text) == 0);
    errno = 0;
    EXPECT(nippersage_start(&kernel, "./missing", NULL) == -1 && errno == ENOENT);
    EXPECT(nippersage_start_recording(&kernel, "./text", NULL, "kept.history") == -1 && errno == EACCES);
    EXPECT(waitpid(-1, NULL, WNOHANG) == -1 && errno == ECHILD);
    after = open("/dev/null", O_RDONLY);
    EXPECT(after == before && close(after) == 0);
}

/* The first of two kernels ends while the second one lives. */
static void two_kernels(const char *path) {
    struct nippersage first, second;
    int ends[2];
    EXPECT(nippersage_start(&first, path, NULL) == 0 && nippersage_start(&second, path, NULL) == 0);
    EXPECT(nippersage_pipe(&first, 0, ends) == 0 && ends[0] == 3 && ends[1] == 4);
    EXPECT(nippersage_end(&first) == 0);
    EXPECT(nippersage_epoll(&second, 0) == 3);
    EXPECT(nippersage_end(&second) == 0);
}

/* A file with all of a history but the record at this place, counted from 0. */
static void write_without(const char *history, const char *shorter, int place) {
    FILE *from = fopen(history, "r"), *to = fopen(shorter, "w");
    int byte, line = 0;
    EXPECT(from && to);
    while ((byte = fgetc(from)) != EOF) {
        if (line != place) fputc(byte, to);
        line += byte == '\n';
    }
    fclose(from);
    EXPECT(fclose(to) == 0);
}

/* The history of examples/level.jsonl up to its first report, and the same without its write. */
static void histories(const char *path, const char *auditor) {
    const char *small = "16,16,2,1,4096,4096", *none = "16,16,2,0,4096,4096";
    struct nippersage kernel;
    struct nippersage_report reports[8];
    int64_t record = -1;
    int ends[2];
    EXPECT(nippersage_start_recording(&kernel, path, small, "kept.history") == 0);
    EXPECT(nippersage_pipe(&kernel, 0, ends) == 0 && nippersage_epoll(&kernel, 0) == 5);
    EXPECT(nippersage_ctl(&kernel, 5, NIPPERSAGE_ADD, 3, NIPPERSAGE_IN, 3) == 0);
    EXPECT(nippersage_write(&kernel, 4, "abc", 3) == 3);
    EXPECT(nippersage_wait(&kernel, 5, reports, 8, 0) == 1);
    EXPECT(nippersage_end(&kernel) == 0);
    EXPECT(nippersage_audit(auditor, small, "kept.history", &record) == 5);
    EXPECT(nippersage_audit(auditor, none, "kept.history", &record) == NIPPERSAGE_ILLEGAL && record == 2);
    write_without("kept.history", "shorter.history", 3);
    EXPECT(nippersage_audit(auditor, small, "shorter.history", &record) == NIPPERSAGE_ILLEGAL && record == 3);
    EXPECT(nippersage_audit(auditor, small, "missing.history", &record) == NIPPERSAGE_UNJUDGED);
    EXPECT(nippersage_audit(auditor, "no limits", "kept.history", &record) == NIPPERSAGE_UNJUDGED);
    EXPECT(nippersage_start_recording(&kernel, path, NULL, "missing/kept.history") == 0);
    EXPECT(nippersage_epoll(&kernel, 0) == NIPPERSAGE_ENDED);
    EXPECT(WEXITSTATUS(nippersage_end(&kernel)) == 1);
}

/* The words are the programs epsim and epaudit, without which histories are not tested. They are written to the folder in
 * which it runs. */
int main(int count, char **words) {
    if (count != 2 && count != 3) return 2;
    alarm(300); /* a kernel that doesn't end is a failure, too */
    if (count == 3) histories(words[1], words[2]);
    two_kernels(words[1]);
    level_triggered(words[1]);
    parked_callers(words[1]);
    timers(words[1]);
    no_times(words[1]);
    timeouts(words[1]);
    older();
    no_program();
    exclusive(words[1]);
    processes(words[1]);
    other_objects(words[1]);
    new_sockets(words[1]);
    names_given(words[1]);
    failed_connects(words[1]);
    taken_errors(words[1]);
    listens(words[1]);
    of_listeners(words[1]);
    connects_to_listeners(words[1]);
    accepts(words[1]);
    asks_of_listeners(words[1]);
    no_answer_of_the_kernel(words[1]);
    return failures != 0;
}
