/* The log: a line for each call on the simulated kernel, in the form of strace -f -ttt. A line has the simulated
   clock in seconds, to a microsecond, the call, and its answer; before them the thread's number, if it isn't the first
   thread. The times of a call are as the program gave them: in milliseconds for epoll_wait and poll, else with their
   units beside them. */
#include "preload.h"

#include <stdarg.h>
#include <stdio.h>
#include <stdlib.h>

bool is_logged;

long plain_answer(long result) {
    if (result >= 0) return result;
    errno = (int)-result;
    return -1;
}

/* Appends to a text as far as there is room. */
__attribute__((format(printf, 2, 3))) static void add(struct text *room, const char *format, ...) {
    size_t size = strlen(room->of);
    va_list arguments;
    va_start(arguments, format);
    vsnprintf(room->of + size, sizeof room->of - size, format, arguments);
    va_end(arguments);
}

/* The file is opened for each line: a descriptor that stayed open could be closed by the program. */
static void write_line(const char *line, size_t size) {
    int fd = open(settings()->log, O_WRONLY | O_CREAT | O_APPEND | O_CLOEXEC, 0666);
    if (fd < 0 || write(fd, line, size) != (ssize_t)size) {
        is_logged = false;
        say("the log can't be written: %s", strerror(errno));
    }
    if (fd >= 0) close(fd);
}

/* The answer as strace writes it. */
static const char *answer_text(struct text *room, long result) {
    const char *name = result < 0 ? strerrorname_np((int)-result) : NULL;
    if (result >= 0) {
        add(room, "%ld", result);
    } else {
        add(room, "-1 %s (%s)", name ? name : "?", strerror((int)-result));
    }
    return room->of;
}

long logged_answer(long result, const char *format, ...) {
    char line[2048], call[1024];
    QUIET;
    uint32_t caller = self().caller;
    double now = (double)moment_now() / SECOND;
    const char *answer = answer_text(TEXT, result);
    va_list arguments;
    int size;
    va_start(arguments, format);
    vsnprintf(call, sizeof call, format, arguments);
    va_end(arguments);
    if (caller == 1) {
        size = snprintf(line, sizeof line, "%.6f %s = %s\n", now, call, answer);
    } else {
        size = snprintf(line, sizeof line, "[pid %u] %.6f %s = %s\n", caller, now, call, answer);
    }
    write_line(line, (size_t)size);
    return plain_answer(result);
}

void logged_child(pid_t pid, long result, const char *format, ...) {
    char line[2048], call[1024];
    QUIET;
    double now = (double)moment_now() / SECOND;
    const char *answer = answer_text(TEXT, result);
    va_list arguments;
    int size;
    va_start(arguments, format);
    vsnprintf(call, sizeof call, format, arguments);
    va_end(arguments);
    size = snprintf(line, sizeof line, "[child %d] %.6f %s = %s\n", pid, now, call, answer);
    write_line(line, (size_t)size);
}

const char *bytes_text(struct text *room, const void *bytes, ssize_t count) {
    static const ssize_t most = 32;
    const unsigned char *from = bytes;
    if (count < 0) {
        add(room, "%p", bytes);
        return room->of;
    }
    add(room, "\"");
    for (ssize_t i = 0; i < count && i < most; i++)
        if (from[i] == '\n') {
            add(room, "\\n");
        } else if (from[i] == '"' || from[i] == '\\') {
            add(room, "\\%c", from[i]);
        } else if (from[i] < ' ' || from[i] > '~') {
            bool is_digit_next = i + 1 < count && from[i + 1] >= '0' && from[i + 1] <= '9';
            add(room, is_digit_next ? "\\%03o" : "\\%o", from[i]);
        } else {
            add(room, "%c", from[i]);
        }
    add(room, count > most ? "\"..." : "\"");
    return room->of;
}

struct name {
    uint32_t bit;
    const char *word;
};

/* The names of the bits, and in hexadecimal what is left. */
static const char *names_text(struct text *room, uint32_t bits, const char *prefix, const struct name *names) {
    const char *between = "";
    for (; names->bit != 0; names++)
        if (bits & names->bit) {
            add(room, "%s%s%s", between, prefix, names->word);
            bits &= ~names->bit;
            between = "|";
        }
    if (bits != 0 || *between == '\0') add(room, bits == 0 ? "%s0" : "%s0x%x", between, bits);
    return room->of;
}

const char *event_text(struct text *room, const struct epoll_event *event) {
    static const struct name names[] = {{EPOLLIN, "IN"},
                                        {EPOLLPRI, "PRI"},
                                        {EPOLLOUT, "OUT"},
                                        {EPOLLERR, "ERR"},
                                        {EPOLLHUP, "HUP"},
                                        {EPOLLRDHUP, "RDHUP"},
                                        {EPOLLEXCLUSIVE, "EXCLUSIVE"},
                                        {EPOLLWAKEUP, "WAKEUP"},
                                        {EPOLLONESHOT, "ONESHOT"},
                                        {EPOLLET, "ET"},
                                        {0, NULL}};
    if (event) {
        add(room, "{events=%s, data={u32=%u, u64=%llu}}", names_text(TEXT, event->events, "EPOLL", names),
            event->data.u32, (unsigned long long)event->data.u64);
    } else {
        add(room, "NULL");
    }
    return room->of;
}

const char *flags_text(struct text *room, const char *prefix, int flags) {
    static const struct name names[] = {{O_CLOEXEC, "CLOEXEC"}, {O_NONBLOCK, "NONBLOCK"}, {0, NULL}};
    return names_text(room, (uint32_t)flags, prefix, names);
}

const char *reports_text(struct text *room, const struct epoll_event *events, int count) {
    static const int most = 4;
    add(room, "[");
    for (int i = 0; i < count && i < most; i++) add(room, "%s%s", i == 0 ? "" : ", ", event_text(TEXT, &events[i]));
    add(room, count > most ? ", ...]" : "]");
    return room->of;
}

const char *clock_text(struct text *room, clockid_t clock) {
    static const char *const names[] = {"REALTIME",      "MONOTONIC",       "PROCESS_CPUTIME_ID", "THREAD_CPUTIME_ID",
                                        "MONOTONIC_RAW", "REALTIME_COARSE", "MONOTONIC_COARSE",   "BOOTTIME"};
    if (clock >= 0 && (size_t)clock < sizeof names / sizeof *names) {
        add(room, "CLOCK_%s", names[clock]);
    } else {
        add(room, "%d", clock);
    }
    return room->of;
}

const char *time_text(struct text *room, const struct timespec *time) {
    if (time) {
        add(room, "{tv_sec=%lld, tv_nsec=%ld}", (long long)time->tv_sec, time->tv_nsec);
    } else {
        add(room, "NULL");
    }
    return room->of;
}

const char *short_time_text(struct text *room, const struct timeval *time) {
    if (time) {
        add(room, "{tv_sec=%lld, tv_usec=%ld}", (long long)time->tv_sec, (long)time->tv_usec);
    } else {
        add(room, "NULL");
    }
    return room->of;
}

const char *setting_text(struct text *room, const struct itimerspec *setting) {
    if (setting) {
        add(room, "{it_interval=%s, it_value=%s}", time_text(TEXT, &setting->it_interval),
            time_text(TEXT, &setting->it_value));
    } else {
        add(room, "NULL");
    }
    return room->of;
}
