/* Drives Nippersage's program from C: one function for each call.
 *
 * A function answers 0 or more if its call is done, and a refusal as minus its error number, as
 * -EAGAIN. So it answers an error that waited at a socket, which is taken by that, and a connect
 * that connects, by -EINPROGRESS. What is none of these is one of the NIPPERSAGE_.. numbers below,
 * which are less than that of any error. docs/calls.md says what each call answers and refuses;
 * docs/clients.md what is promised. Needs no library but C's, in POSIX.1-2008: compile as GNU C, or
 * define _POSIX_C_SOURCE as 200809L.
 *
 * A time is a struct timespec. What is finer than the kernel's unit, a microsecond, is rounded up.
 * One that is no time, as with 1,000,000,000 nanoseconds, is -EINVAL, and nothing is sent. */
#ifndef NIPPERSAGE_CLIENT_H
#define NIPPERSAGE_CLIENT_H
#ifdef NIPPERSAGE_H
#error "nippersage_client.h and the library's nippersage.h name different functions alike: include one of them"
#endif

#include <errno.h>
#include <fcntl.h>
#include <inttypes.h>
#include <stddef.h>
#include <stdio.h>
#include <stdlib.h>
#include <string.h>
#include <sys/socket.h>
#include <sys/types.h>
#include <sys/wait.h>
#include <time.h>
#include <unistd.h>

#ifndef F_DUPFD_CLOEXEC
#error "nippersage_client.h needs POSIX.1-2008: compile as GNU C, or define _POSIX_C_SOURCE as 200809L before the first include"
#endif

enum {
    NIPPERSAGE_IN = 1, NIPPERSAGE_PRI = 2, NIPPERSAGE_OUT = 4, NIPPERSAGE_ERR = 8,
    NIPPERSAGE_HUP = 16, NIPPERSAGE_RDHUP = 8192
};
#define NIPPERSAGE_EXCLUSIVE (UINT32_C(1) << 28)
#define NIPPERSAGE_WAKEUP (UINT32_C(1) << 29)
#define NIPPERSAGE_ONESHOT (UINT32_C(1) << 30)
#define NIPPERSAGE_ET (UINT32_C(1) << 31)

enum { NIPPERSAGE_ADD = 1, NIPPERSAGE_DEL = 2, NIPPERSAGE_MOD = 3 };

/* The program runs no more. */
#define NIPPERSAGE_ENDED (-100001)
/* The kernel has answered 99,999 calls, and no kernel answers more. */
#define NIPPERSAGE_CALLS (-100002)
/* The line of the call is longer than 65,536 bytes: a write of some 32,000 bytes or more. */
#define NIPPERSAGE_LINE (-100003)
/* A value is out of its range, as a fill of more than 1,048,576 bytes. */
#define NIPPERSAGE_RANGE (-100004)
/* A wait or a resumption answered that the caller is parked. */
#define NIPPERSAGE_PARKED (-100005)
/* The client itself found no memory; nothing was sent. */
#define NIPPERSAGE_MEMORY (-100006)
/* A history has a record that the model doesn't allow. */
#define NIPPERSAGE_ILLEGAL (-100007)
/* There is no verdict on a history: a line is no record, or the file can't be read. */
#define NIPPERSAGE_UNJUDGED (-100008)
/* The program is older than this file: it doesn't take times in microseconds. */
#define NIPPERSAGE_OLDER (-100009)

/* A run of the program has at most 100,000 lines, and the header is one. */
#define NIPPERSAGE_MOST_CALLS 99999
#define NIPPERSAGE_LONGEST_LINE 65536

/* A kernel in a process of its own. `by` is the caller and `pid` the process of the next calls;
 * both may be set between two calls. */
struct nippersage {
    uint32_t by;
    uint64_t pid;
    long calls;
    int has_begun;
    int channel;
    FILE *answers;
    pid_t program;
    char *answer;
    size_t room;
};

struct nippersage_report {
    uint32_t bits;
    uint64_t data;
};

/* Becomes the program at this path, with these options; those that are NULL are left out. If there is no such program,
 * its errno is written to `told`. */
static inline void nippersage_become(const char *path, const char *limits, const char *history, int told) {
    const char *words[6] = {path};
    int count = 1;
    if (limits) {
        words[count++] = "--limits";
        words[count++] = limits;
    }
    if (history) {
        words[count++] = "--history";
        words[count++] = history;
    }
    execvp(path, (char *const *)words);
    if (write(told, &errno, sizeof errno) < 0) _exit(126);
    _exit(127);
}

/* What nippersage_become has told: the errno of what kept the program from running, or 0 if it runs. */
static inline int nippersage_read_errno(int told) {
    int number = 0;
    ssize_t count;
    do {
        count = read(told, &number, sizeof number);
    } while (count < 0 && errno == EINTR);
    return count == (ssize_t)sizeof number ? number : 0;
}

/* Starts the program with this end of a channel as its standard input and output. Its number, or -1 with errno. It
 * fails, too, if there is no such program. */
static inline pid_t nippersage_spawn(const char *path, const char *limits, const char *history, int end) {
    int told[2], teller, fault;
    pid_t program;
    if (pipe(told) < 0) return -1;
    /* Exec closes it, and its number is none that the channel gets. */
    teller = fcntl(told[1], F_DUPFD_CLOEXEC, 3);
    close(told[1]);
    program = teller < 0 ? -1 : fork();
    if (program == 0) {
        close(told[0]);
        if (dup2(end, 0) < 0 || dup2(end, 1) < 0) _exit(127);
        if (end > 1) close(end);
        nippersage_become(path, limits, history, teller);
    }
    fault = program < 0 ? errno : 0;
    if (teller >= 0) close(teller);
    if (fault == 0) fault = nippersage_read_errno(told[0]);
    close(told[0]);
    if (fault == 0) return program;
    if (program > 0) waitpid(program, NULL, 0);
    errno = fault;
    return -1;
}

/* Starts the program at this path, with six numbers as `--limits` takes them, or the limits by
 * default if they are NULL. It writes the history to the file `history`, which is made anew, a line
 * for each event, or to none if that is NULL. 0, or -1 with errno, as ENOENT if there is no program
 * at this path. If the file can't be made or written, the program ends and says so on standard
 * error. Start kernels from one thread at a time. */
static inline int nippersage_start_recording(struct nippersage *kernel, const char *path, const char *limits, const char *history) {
    int ends[2], fault;
    memset(kernel, 0, sizeof *kernel);
    kernel->pid = 1;
    if (socketpair(AF_UNIX, SOCK_STREAM, 0, ends) < 0) return -1;
    /* Else the program would keep its own input open, and that of an earlier kernel. */
    fcntl(ends[0], F_SETFD, FD_CLOEXEC);
    kernel->program = nippersage_spawn(path, limits, history, ends[1]);
    fault = errno;
    close(ends[1]);
    kernel->channel = ends[0];
    kernel->answers = kernel->program < 0 ? NULL : fdopen(ends[0], "r");
    if (kernel->answers) return 0;
    if (kernel->program > 0) {
        fault = errno;
        close(ends[0]);
        waitpid(kernel->program, NULL, 0);
    } else {
        close(ends[0]);
    }
    errno = fault;
    return -1;
}

/* The same without a history. */
static inline int nippersage_start(struct nippersage *kernel, const char *path, const char *limits) {
    return nippersage_start_recording(kernel, path, limits, NULL);
}

/* Ends the program, and gives its status as waitpid does. */
static inline int nippersage_end(struct nippersage *kernel) {
    int status = -1;
    fclose(kernel->answers);
    free(kernel->answer);
    waitpid(kernel->program, &status, 0);
    return status;
}

/* Starts the auditor at this path on this input. `told` is what it writes. Its number, or -1. */
static inline pid_t nippersage_start_audit(const char *path, const char *limits, int input, FILE **told) {
    int ends[2];
    pid_t auditor;
    if (pipe(ends) < 0) return -1;
    auditor = fork();
    if (auditor == 0) {
        if (dup2(input, 0) < 0 || dup2(ends[1], 1) < 0) _exit(127);
        nippersage_become(path, limits, NULL, -1);
    }
    close(ends[1]);
    *told = auditor < 0 ? NULL : fdopen(ends[0], "r");
    if (*told) return auditor;
    close(ends[0]);
    if (auditor > 0) waitpid(auditor, NULL, 0);
    return -1;
}

/* Has the program epaudit at this path check the history in a file, under the limits of the kernel
 * that made it. How many records it has if the model allows all of them; NIPPERSAGE_ILLEGAL, and
 * `record` is the place of the first that it doesn't allow, counted from 0; or NIPPERSAGE_UNJUDGED.
 * Call it once nippersage_end has given 0: before that the last record may be missing. */
static inline int64_t nippersage_audit(const char *path, const char *limits, const char *history, int64_t *record) {
    int64_t count, verdict = NIPPERSAGE_UNJUDGED;
    FILE *told;
    pid_t auditor;
    int input = open(history, O_RDONLY);
    if (input < 0) return NIPPERSAGE_UNJUDGED;
    auditor = nippersage_start_audit(path, limits, input, &told);
    close(input);
    if (auditor < 0) return NIPPERSAGE_UNJUDGED;
    if (fscanf(told, "ok %" SCNd64 " records", &count) == 1) verdict = count;
    else if (fscanf(told, "illegal at record %" SCNd64, record) == 1) verdict = NIPPERSAGE_ILLEGAL;
    while (fgetc(told) != EOF) continue;
    fclose(told);
    waitpid(auditor, NULL, 0);
    return verdict;
}

/* Sends all of it; a program that ended is no signal. */
static inline int nippersage_send(struct nippersage *kernel, const char *text, size_t length) {
    while (length > 0) {
        ssize_t sent = send(kernel->channel, text, length, MSG_NOSIGNAL);
        if (sent <= 0) return NIPPERSAGE_ENDED;
        text += sent;
        length -= (size_t)sent;
    }
    return 0;
}

/* Sends a line, and reads the one that answers it. 0, or NIPPERSAGE_ENDED. */
static inline int nippersage_exchange(struct nippersage *kernel, const char *line, size_t length) {
    if (nippersage_send(kernel, line, length) < 0) return NIPPERSAGE_ENDED;
    return getline(&kernel->answer, &kernel->room, kernel->answers) < 0 ? NIPPERSAGE_ENDED : 0;
}

/* Says once, before the first call, that times are in microseconds. That line is its own answer. */
static inline int nippersage_begin(struct nippersage *kernel) {
    const char *header = "{\"version\":2}\n";
    int status;
    if (kernel->has_begun) return 0;
    status = nippersage_exchange(kernel, header, strlen(header));
    if (status < 0) return status;
    if (strcmp(kernel->answer, header) != 0) return NIPPERSAGE_OLDER;
    kernel->has_begun = 1;
    return 0;
}

/* Sends the line {"op":..,"by":.. and what `rest` holds}, and reads its answer. 0, or less than 0. */
static inline int nippersage_ask(struct nippersage *kernel, const char *op, int of_process, const char *rest) {
    size_t most = strlen(rest) + 128;
    char *line = malloc(most);
    int length, status, number;
    if (!line) return NIPPERSAGE_MEMORY;
    length = snprintf(line, most, "{\"op\":\"%s\",\"by\":%" PRIu32, op, kernel->by);
    if (of_process) length += snprintf(line + length, most - (size_t)length, ",\"pid\":%" PRIu64, kernel->pid);
    length += snprintf(line + length, most - (size_t)length, "%s}\n", rest);
    if (length - 1 > NIPPERSAGE_LONGEST_LINE) status = NIPPERSAGE_LINE;
    else if (kernel->calls == NIPPERSAGE_MOST_CALLS) status = NIPPERSAGE_CALLS;
    else status = nippersage_begin(kernel);
    if (status == 0) {
        kernel->calls++;
        status = nippersage_exchange(kernel, line, (size_t)length);
    }
    free(line);
    if (status < 0) return status;
    if (sscanf(kernel->answer, "{\"err\":[%d,", &number) == 1) return -number;
    if (sscanf(kernel->answer, "{\"failed\":[%d,", &number) == 1) return -number;
    if (strcmp(kernel->answer, "{\"connecting\":true}\n") == 0) return -EINPROGRESS;
    if (strncmp(kernel->answer, "{\"bad\":", 7) == 0) return NIPPERSAGE_RANGE;
    return 0;
}

/* The same for an answer of one number. */
static inline int64_t nippersage_number(struct nippersage *kernel, const char *op, const char *rest) {
    int64_t number = 0;
    int status = nippersage_ask(kernel, op, 1, rest);
    if (status < 0) return status;
    return sscanf(kernel->answer, "{\"num\":%" SCNd64, &number) == 1 ? number : NIPPERSAGE_ENDED;
}

/* The same for an answer of two numbers. */
static inline int nippersage_two(struct nippersage *kernel, const char *op, const char *rest, uint64_t two[2]) {
    const char *list;
    int status = nippersage_ask(kernel, op, 1, rest);
    if (status < 0) return status;
    list = strchr(kernel->answer, '[');
    return list && sscanf(list, "[%" SCNu64 ",%" SCNu64, &two[0], &two[1]) == 2 ? 0 : NIPPERSAGE_ENDED;
}

/* A pair of descriptors that a call with this name makes. */
static inline int nippersage_ends(struct nippersage *kernel, const char *op, int cloexec, int ends[2]) {
    uint64_t two[2];
    int status = nippersage_two(kernel, op, cloexec ? ",\"cloexec\":true" : "", two);
    if (status == 0) {
        ends[0] = (int)two[0];
        ends[1] = (int)two[1];
    }
    return status;
}

/* How many reports, of which at most `max` are stored; or NIPPERSAGE_PARKED. */
static inline int nippersage_reports(struct nippersage *kernel, struct nippersage_report *reports, int max) {
    const char *at = strchr(kernel->answer, '[');
    int count = 0, used;
    if (!at) return NIPPERSAGE_PARKED;
    at++;
    while (count < max && sscanf(at, "[%" SCNu32 ",%" SCNu64 "]%n", &reports[count].bits, &reports[count].data, &used) == 2) {
        at += used;
        at += *at == ',';
        count++;
    }
    return count;
}

/* ---- times ---- */

/* In microseconds, rounded up, or -1 if it is none. What is above the largest number is that. */
static inline int64_t nippersage_microseconds(const struct timespec *time) {
    if (time->tv_sec < 0 || time->tv_nsec < 0 || time->tv_nsec >= 1000000000) return -1;
    if (time->tv_sec > INT64_MAX / 1000000 - 1) return INT64_MAX;
    return (int64_t)time->tv_sec * 1000000 + (time->tv_nsec + 999) / 1000;
}

/* So many microseconds. */
static inline struct timespec nippersage_timespec(uint64_t time) {
    struct timespec found = {.tv_sec = (time_t)(time / 1000000), .tv_nsec = (long)(time % 1000000) * 1000};
    return found;
}

/* What a call with this name answers of a timer. `setting` may be NULL. */
static inline int nippersage_setting(struct nippersage *kernel, const char *op, const char *rest, struct itimerspec *setting) {
    uint64_t two[2];
    int status = nippersage_two(kernel, op, rest, two);
    if (status < 0 || !setting) return status;
    setting->it_value = nippersage_timespec(two[0]);
    setting->it_interval = nippersage_timespec(two[1]);
    return status;
}

/* ---- the calls ---- */

/* The read end and the write end of a new pipe. */
static inline int nippersage_pipe(struct nippersage *kernel, int cloexec, int ends[2]) {
    return nippersage_ends(kernel, "pipe", cloexec, ends);
}

/* The two ends of a new pair of sockets. */
static inline int nippersage_socketpair(struct nippersage *kernel, int cloexec, int ends[2]) {
    return nippersage_ends(kernel, "socketpair", cloexec, ends);
}

/* A new socket, which has no connection and no name: of TCP for AF_INET and AF_INET6, which make the same, of Unix for
 * AF_UNIX. -EAFNOSUPPORT for any other `domain`, which is not sent. */
static inline int nippersage_socket(struct nippersage *kernel, int domain, int cloexec) {
    const char *family = domain == AF_INET || domain == AF_INET6 ? "tcp" : domain == AF_UNIX ? "unix" : NULL;
    char rest[64];
    if (!family) return -EAFNOSUPPORT;
    snprintf(rest, sizeof rest, ",\"family\":\"%s\",\"cloexec\":%s", family, cloexec ? "true" : "false");
    return (int)nippersage_number(kernel, "socket", rest);
}

/* A new counter that starts at `init`; its values are 8 bytes, the lowest first. */
static inline int nippersage_eventfd(struct nippersage *kernel, uint32_t init, int semaphore, int cloexec) {
    char rest[96];
    snprintf(rest, sizeof rest, ",\"init\":%" PRIu32 ",\"sem\":%s,\"cloexec\":%s", init,
             semaphore ? "true" : "false", cloexec ? "true" : "false");
    return (int)nippersage_number(kernel, "eventfd", rest);
}

/* A new timer, disarmed. Clocks 0 and 1 are the one clock that nippersage_tick moves. */
static inline int nippersage_timerfd(struct nippersage *kernel, int clock, int cloexec) {
    char rest[64];
    snprintf(rest, sizeof rest, ",\"clock\":%d,\"cloexec\":%s", clock, cloexec ? "true" : "false");
    return (int)nippersage_number(kernel, "timerfd", rest);
}

/* A file that can't be polled. */
static inline int nippersage_plain(struct nippersage *kernel, int cloexec) {
    return (int)nippersage_number(kernel, "plain", cloexec ? ",\"cloexec\":true" : "");
}

/* A new instance. */
static inline int nippersage_epoll(struct nippersage *kernel, int cloexec) {
    return (int)nippersage_number(kernel, "epoll", cloexec ? ",\"cloexec\":true" : "");
}

/* op is NIPPERSAGE_ADD, NIPPERSAGE_DEL or NIPPERSAGE_MOD. */
static inline int nippersage_ctl(struct nippersage *kernel, int ep, int op, int fd, uint32_t mask, uint64_t data) {
    char rest[128];
    snprintf(rest, sizeof rest, ",\"ep\":%d,\"act\":%d,\"fd\":%d,\"mask\":%" PRIu32 ",\"data\":%" PRIu64, ep, op, fd, mask, data);
    return nippersage_ask(kernel, "ctl", 1, rest);
}

/* A wait of so many microseconds, or without a deadline if they are less than 0. */
static inline int nippersage_wait_for(struct nippersage *kernel, int ep, struct nippersage_report *reports, int max, int64_t timeout) {
    char rest[96];
    int status;
    snprintf(rest, sizeof rest, ",\"ep\":%d,\"max\":%d,\"timeout\":%" PRId64, ep, max, timeout);
    status = nippersage_ask(kernel, "wait", 1, rest);
    return status < 0 ? status : nippersage_reports(kernel, reports, max);
}

/* How many reports were stored, at most `max`, or NIPPERSAGE_PARKED. `timeout` is in milliseconds,
 * as that of epoll_wait(2): 0 never parks, less than 0 parks without a deadline. */
static inline int nippersage_wait(struct nippersage *kernel, int ep, struct nippersage_report *reports, int max, int64_t timeout) {
    if (timeout < 0) timeout = -1;
    else if (timeout > INT64_MAX / 1000) timeout = INT64_MAX;
    else timeout *= 1000;
    return nippersage_wait_for(kernel, ep, reports, max, timeout);
}

/* The same with the timeout of epoll_pwait2(2): NULL parks without a deadline. */
static inline int nippersage_pwait2(struct nippersage *kernel, int ep, struct nippersage_report *reports, int max, const struct timespec *timeout) {
    int64_t most = timeout ? nippersage_microseconds(timeout) : -1;
    return timeout && most < 0 ? -EINVAL : nippersage_wait_for(kernel, ep, reports, max, most);
}

/* What the parked wait of the caller reports, or NIPPERSAGE_PARKED if it is still parked.
 * `max` is that of its wait, or more. */
static inline int nippersage_resume(struct nippersage *kernel, struct nippersage_report *reports, int max) {
    int status = nippersage_ask(kernel, "resume", 0, "");
    return status < 0 ? status : nippersage_reports(kernel, reports, max);
}

/* A call that answers bytes, at most `count`: how many they are. */
static inline int64_t nippersage_bytes(struct nippersage *kernel, const char *op, int fd, void *bytes, uint32_t count) {
    char rest[64];
    const char *digits;
    unsigned byte;
    int64_t taken = 0;
    int status;
    snprintf(rest, sizeof rest, ",\"fd\":%d,\"n\":%" PRIu32, fd, count);
    status = nippersage_ask(kernel, op, 1, rest);
    if (status < 0) return status;
    digits = kernel->answer + strlen("{\"bytes\":\"");
    while (taken < count && sscanf(digits + 2 * taken, "%2x", &byte) == 1) ((unsigned char *)bytes)[taken++] = (unsigned char)byte;
    return taken;
}

/* How many bytes were read, at most `count`; 0 at the end of a stream. */
static inline int64_t nippersage_read(struct nippersage *kernel, int fd, void *bytes, uint32_t count) {
    return nippersage_bytes(kernel, "read", fd, bytes, count);
}

/* The same of a socket, whose bytes stay there. */
static inline int64_t nippersage_peek(struct nippersage *kernel, int fd, void *bytes, uint32_t count) {
    return nippersage_bytes(kernel, "peek", fd, bytes, count);
}

/* How many of the bytes were taken. */
static inline int64_t nippersage_write(struct nippersage *kernel, int fd, const void *bytes, size_t count) {
    char *rest;
    size_t i;
    int start;
    int64_t taken;
    if (count > NIPPERSAGE_LONGEST_LINE / 2) return NIPPERSAGE_LINE;
    rest = malloc(2 * count + 64);
    if (!rest) return NIPPERSAGE_MEMORY;
    start = snprintf(rest, 64, ",\"fd\":%d,\"hex\":\"", fd);
    for (i = 0; i < count; i++) sprintf(rest + start + 2 * i, "%02x", ((const unsigned char *)bytes)[i]);
    strcpy(rest + start + 2 * count, "\"");
    taken = nippersage_number(kernel, "write", rest);
    free(rest);
    return taken;
}

/* Writes a byte so many times, at most 1,048,576. */
static inline int64_t nippersage_fill(struct nippersage *kernel, int fd, unsigned char byte, uint32_t count) {
    char rest[64];
    snprintf(rest, sizeof rest, ",\"fd\":%d,\"fill\":[%u,%" PRIu32 "]", fd, byte, count);
    return nippersage_number(kernel, "write", rest);
}

/* A call that has only a descriptor, and answers that it is done. */
static inline int nippersage_of_fd(struct nippersage *kernel, const char *op, int fd) {
    char rest[32];
    snprintf(rest, sizeof rest, ",\"fd\":%d", fd);
    return nippersage_ask(kernel, op, 1, rest);
}

/* Shuts the reading of a socket, SHUT_RD, its writing, SHUT_WR, or both, SHUT_RDWR. -EINVAL for any other `how`, which is
 * not sent. */
static inline int nippersage_shutdown(struct nippersage *kernel, int fd, int how) {
    const char *word = how == SHUT_RD ? "rd" : how == SHUT_WR ? "wr" : how == SHUT_RDWR ? "rdwr" : NULL;
    char rest[64];
    if (!word) return -EINVAL;
    snprintf(rest, sizeof rest, ",\"fd\":%d,\"how\":\"%s\"", fd, word);
    return nippersage_ask(kernel, "shutdown", 1, rest);
}

/* The number of the error that waits at a socket, which is taken by this; 0 if none waits. */
static inline int64_t nippersage_take_error(struct nippersage *kernel, int fd) {
    char rest[32];
    snprintf(rest, sizeof rest, ",\"fd\":%d", fd);
    return nippersage_number(kernel, "sockerr", rest);
}

/* The name of a socket: its space, "v4", "v6" or "local", and its number there. */
struct nippersage_name {
    char space[8];
    uint32_t number;
};

/* A question for a name: 1 and the name, or 0 if there is none; then *name stays. */
static inline int nippersage_name_by(struct nippersage *kernel, const char *op, int fd, struct nippersage_name *name) {
    struct nippersage_name found;
    int status = nippersage_of_fd(kernel, op, fd);
    if (status < 0) return status;
    if (sscanf(kernel->answer, "{\"name\":[\"%7[a-z0-9]\",%" SCNu32, found.space, &found.number) != 2) return 0;
    *name = found;
    return 1;
}

/* The name of a socket. Both ends of a socket pair have none. */
static inline int nippersage_sockname(struct nippersage *kernel, int fd, struct nippersage_name *name) {
    return nippersage_name_by(kernel, "sockname", fd, name);
}

/* The name of the socket at the other end. -ENOTCONN if there is no connection. */
static inline int nippersage_peername(struct nippersage *kernel, int fd, struct nippersage_name *name) {
    return nippersage_name_by(kernel, "peername", fd, name);
}

/* A call that is given a name. -EINVAL for a space that is none, which is not sent. */
static inline int nippersage_ask_with(struct nippersage *kernel, const char *op, int fd, const struct nippersage_name *name) {
    static const char *const spaces[] = {"v4", "v6", "local"};
    char rest[96];
    int place = 0;
    while (place < 3 && strncmp(name->space, spaces[place], sizeof name->space) != 0) place++;
    if (place == 3) return -EINVAL;
    snprintf(rest, sizeof rest, ",\"fd\":%d,\"space\":\"%s\",\"name\":%" PRIu32, fd, spaces[place], name->number);
    return nippersage_ask(kernel, op, 1, rest);
}

/* Gives a socket its name. Number 0 asks for any that is free, and nippersage_sockname tells it. NIPPERSAGE_RANGE for a
 * number above 65,535 in "v4" or "v6". */
static inline int nippersage_bind(struct nippersage *kernel, int fd, const struct nippersage_name *name) {
    return nippersage_ask_with(kernel, "bind", fd, name);
}

/* Makes a socket listen at its name. A TCP socket without a name gets one by this, and a Unix one has to have one.
 * `backlog` + 1 connections may wait there. A backlog above 4,096 or below 0 is 4,096. */
static inline int nippersage_listen(struct nippersage *kernel, int fd, int backlog) {
    char rest[64];
    snprintf(rest, sizeof rest, ",\"fd\":%d,\"backlog\":%d", fd, backlog);
    return nippersage_ask(kernel, "listen", 1, rest);
}

/* The connection that waits longest at a listener. None waits yet, so it is -EAGAIN. */
static inline int nippersage_accept(struct nippersage *kernel, int fd, int cloexec) {
    char rest[64];
    snprintf(rest, sizeof rest, ",\"fd\":%d,\"cloexec\":%s", fd, cloexec ? "true" : "false");
    return (int)nippersage_number(kernel, "accept", rest);
}

/* Connects a socket to this name: 0 if it is done, -EINPROGRESS if it connects. No connect gets through yet. If nobody
 * listens at the name, that of a TCP socket has failed when the call returns, and that of a Unix one is -ECONNREFUSED.
 * If a socket listens there, it is -EINVAL. */
static inline int nippersage_connect(struct nippersage *kernel, int fd, const struct nippersage_name *name) {
    return nippersage_ask_with(kernel, "connect", fd, name);
}

/* Closes a descriptor. */
static inline int nippersage_close(struct nippersage *kernel, int fd) {
    return nippersage_of_fd(kernel, "close", fd);
}

/* Sets a timer. `before`, if it isn't NULL, gets the value and the interval that stood before. */
static inline int nippersage_settime(struct nippersage *kernel, int fd, int absolute, const struct itimerspec *setting, struct itimerspec *before) {
    int64_t value = nippersage_microseconds(&setting->it_value);
    int64_t interval = nippersage_microseconds(&setting->it_interval);
    char rest[128];
    if (value < 0 || interval < 0) return -EINVAL;
    snprintf(rest, sizeof rest, ",\"fd\":%d,\"abs\":%s,\"value\":%" PRId64 ",\"interval\":%" PRId64, fd,
             absolute ? "true" : "false", value, interval);
    return nippersage_setting(kernel, "settime", rest, before);
}

/* `now` gets the time until the next expiration, 0 if there is no next one, and the interval. */
static inline int nippersage_gettime(struct nippersage *kernel, int fd, struct itimerspec *now) {
    char rest[32];
    snprintf(rest, sizeof rest, ",\"fd\":%d", fd);
    return nippersage_setting(kernel, "gettime", rest, now);
}

/* Another descriptor of the same description. */
static inline int nippersage_dup(struct nippersage *kernel, int fd) {
    char rest[32];
    snprintf(rest, sizeof rest, ",\"fd\":%d", fd);
    return (int)nippersage_number(kernel, "dup", rest);
}

/* The same under the number `to`, which is closed first. */
static inline int nippersage_dup2(struct nippersage *kernel, int fd, int to) {
    char rest[64];
    snprintf(rest, sizeof rest, ",\"fd\":%d,\"to\":%d", fd, to);
    return (int)nippersage_number(kernel, "dup2", rest);
}

/* The number of the new process. */
static inline int64_t nippersage_fork(struct nippersage *kernel) {
    return nippersage_number(kernel, "fork", "");
}

/* Closes the descriptors of the process that have close-on-exec. */
static inline int nippersage_exec(struct nippersage *kernel) {
    return nippersage_ask(kernel, "exec", 1, "");
}

/* Ends the process. */
static inline int nippersage_exit(struct nippersage *kernel) {
    return nippersage_ask(kernel, "exit", 1, "");
}

/* The clock goes on by this time. */
static inline int nippersage_tick(struct nippersage *kernel, const struct timespec *time) {
    int64_t more = nippersage_microseconds(time);
    char rest[32];
    if (more < 0) return -EINVAL;
    snprintf(rest, sizeof rest, ",\"n\":%" PRId64, more);
    return nippersage_ask(kernel, "tick", 0, rest);
}

#endif
