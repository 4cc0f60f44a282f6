/* Calls, answers and masks as a reader knows them. */
#include "orders.h"

#include <errno.h>
#include <fcntl.h>
#include <inttypes.h>
#include <stdio.h>
#include <stdlib.h>
#include <string.h>

int steps_put(struct steps *steps, const struct step *step) {
    if (!has_place((void **)&steps->all, steps->count, &steps->room, sizeof *steps->all)) return -ENOMEM;
    steps->all[steps->count++] = *step;
    return 0;
}

void steps_free(struct steps *steps) {
    free(steps->all);
    free(steps->reports);
}

int is_same_call(const struct step *one, const struct step *other) {
    const struct ep_request *a = &one->request, *b = &other->request;
    return one->number == other->number && a->event == b->event && a->pid == b->pid && a->value == b->value &&
           a->interval == b->interval && a->timeout == b->timeout && a->fd == b->fd && a->target == b->target &&
           a->number == b->number && a->count == b->count && a->flags == b->flags &&
           one->given_length == other->given_length && one->given_hash == other->given_hash;
}

const char *error_name(int64_t number) {
    static const struct {
        int number;
        const char *name;
    } errors[] = {
        {EPERM, "EPERM"},   {ENOENT, "ENOENT"}, {ESRCH, "ESRCH"},   {EBADF, "EBADF"},     {EAGAIN, "EAGAIN"},
        {ENOMEM, "ENOMEM"}, {EFAULT, "EFAULT"}, {EBUSY, "EBUSY"},   {EEXIST, "EEXIST"},   {EINVAL, "EINVAL"},
        {ENFILE, "ENFILE"}, {EMFILE, "EMFILE"}, {ENOSPC, "ENOSPC"}, {EPIPE, "EPIPE"},     {EDEADLK, "EDEADLK"},
        {ELOOP, "ELOOP"},   {EPROTO, "EPROTO"}, {EIO, "EIO"},       {ENOTSOCK, "ENOTSOCK"}, {EBADMSG, "EBADMSG"},
        {EMSGSIZE, "EMSGSIZE"}, {EOPNOTSUPP, "EOPNOTSUPP"}, {EAFNOSUPPORT, "EAFNOSUPPORT"},
        {EADDRINUSE, "EADDRINUSE"}, {EADDRNOTAVAIL, "EADDRNOTAVAIL"}, {ECONNABORTED, "ECONNABORTED"},
        {ECONNRESET, "ECONNRESET"}, {EISCONN, "EISCONN"}, {ENOTCONN, "ENOTCONN"}, {ETIMEDOUT, "ETIMEDOUT"},
        {ECONNREFUSED, "ECONNREFUSED"}, {EALREADY, "EALREADY"}, {EINPROGRESS, "EINPROGRESS"}, {ECANCELED, "ECANCELED"},
    };
    for (size_t i = 0; i < sizeof errors / sizeof errors[0]; i++)
        if (errors[i].number == number) return errors[i].name;
    return "an error";
}

void text_bits(struct text *text, uint32_t mask) {
    static const struct {
        uint32_t bit;
        const char *name;
    } bits[] = {
        {EPOLLIN, "IN"},     {EPOLLPRI, "PRI"},     {EPOLLOUT, "OUT"},         {EPOLLERR, "ERR"},
        {EPOLLHUP, "HUP"},   {EPOLLRDHUP, "RDHUP"}, {EPOLLEXCLUSIVE, "EXCLUSIVE"}, {EPOLLWAKEUP, "WAKEUP"},
        {EPOLLONESHOT, "ONESHOT"}, {EPOLLET, "ET"},
    };
    const char *between = "";
    for (size_t i = 0; i < sizeof bits / sizeof bits[0]; i++) {
        if (!(mask & bits[i].bit)) continue;
        text_add(text, "%s%s", between, bits[i].name);
        mask &= ~bits[i].bit;
        between = "|";
    }
    if (mask != 0 || *between == 0) text_add(text, mask != 0 ? "%s%#" PRIx32 : "%s%" PRIx32, between, mask);
}

/* So many microseconds in seconds. */
static void text_time(struct text *text, uint64_t time) {
    char digits[32];
    int length;
    text_add(text, "%" PRIu64, time / 1000000);
    if (time % 1000000 == 0) return;
    length = snprintf(digits, sizeof digits, "%06" PRIu64, time % 1000000);
    while (length > 0 && digits[length - 1] == '0') digits[--length] = 0;
    text_add(text, ".%s", digits);
}

static void text_bytes(struct text *text, const uint8_t *bytes, uint64_t count) {
    text_add(text, "\"");
    for (uint64_t i = 0; i < count && i < SHOWN; i++) {
        if (bytes[i] == '"' || bytes[i] == '\\')
            text_add(text, "\\%c", bytes[i]);
        else if (bytes[i] >= 32 && bytes[i] < 127)
            text_add(text, "%c", bytes[i]);
        else
            text_add(text, "\\x%02x", bytes[i]);
    }
    text_add(text, count > SHOWN ? "\".. (%" PRIu64 " bytes)" : "\"", count);
}

static void text_flag(struct text *text, const struct ep_request *request, uint32_t flag, const char *word) {
    if (request->flags & flag) text_add(text, "%s%s", text->bytes[text->length - 1] == '(' ? "" : ", ", word);
}

static void text_wait(struct text *text, const struct ep_request *request) {
    text_add(text, "epoll_wait(%d, %d, ", request->fd, request->number);
    if (request->timeout < 0)
        text_add(text, "-1");
    else
        text_time(text, (uint64_t)request->timeout);
}

static void text_ctl(struct text *text, const struct ep_request *request) {
    static const char *const acts[] = {"", "ADD", "DEL", "MOD"};
    int is_known = request->number >= EPOLL_CTL_ADD && request->number <= EPOLL_CTL_MOD;
    text_add(text, "epoll_ctl(%d, ", request->fd);
    if (is_known)
        text_add(text, "%s", acts[request->number]);
    else
        text_add(text, "%d", request->number);
    text_add(text, ", %d", request->target);
    if (request->number == EPOLL_CTL_DEL) return;
    text_add(text, ", ");
    text_bits(text, request->count);
    text_add(text, ", %" PRIu64, request->value);
}

static void text_settime(struct text *text, const struct ep_request *request) {
    text_add(text, "timerfd_settime(%d, ", request->fd);
    text_time(text, request->value);
    text_add(text, ", ");
    text_time(text, request->interval);
    text_flag(text, request, EP_ABSOLUTE, "ABSTIME");
}

/* The writing is shut if no word says otherwise. */
static void text_shutdown(struct text *text, const struct ep_request *request) {
    text_add(text, "shutdown(%d", request->fd);
    if (request->number == EP_SHUT_READ) text_add(text, ", SHUT_RD");
    if (request->number == EP_SHUT_BOTH) text_add(text, ", SHUT_RDWR");
}

static void text_name(struct text *text, int32_t space, uint64_t number) {
    static const char *const spaces[] = {[EP_V4] = "v4", [EP_V6] = "v6", [EP_LOCAL] = "local"};
    text_add(text, "(%s, %" PRIu64 ")", spaces[space], number);
}

/* A bind or connect. */
static void text_naming(struct text *text, const struct ep_request *request) {
    text_add(text, "%s(%d, ", request->event == EP_BIND ? "bind" : "connect", request->fd);
    text_name(text, request->number, request->count);
}

/* The name of a call with its words, up to the closing bracket. */
static void text_words(struct text *text, const struct step *step) {
    static const char *const names[] = {
        [EP_PIPE] = "pipe2",       [EP_TIMERFD] = "timerfd_create", [EP_SOCKETPAIR] = "socketpair",
        [EP_PLAIN] = "plain",      [EP_CREATE] = "epoll_create1",
        [EP_DUP] = "dup",          [EP_CLOSE] = "close",            [EP_FORK] = "fork",
        [EP_EXEC] = "execve",      [EP_EXIT] = "exit",              [EP_RESUME] = "resume",
        [EP_GETTIME] = "timerfd_gettime",                           [EP_SOCKERR] = "take_error",
    };
    const struct ep_request *request = &step->request;
    switch (request->event) {
    case 0: text_add(text, "shared(%.*s", (int)shown_of(step->given_length), step->given); break;
    case EP_EVENTFD: text_add(text, "eventfd(%" PRIu32, request->count); break;
    case EP_CTL: text_ctl(text, request); break;
    case EP_WAIT: text_wait(text, request); break;
    case EP_READ: text_add(text, "read(%d, %" PRIu32, request->fd, request->count); break;
    case EP_PEEK: text_add(text, "peek(%d, %" PRIu32, request->fd, request->count); break;
    case EP_SOCKNAME:
        text_add(text, "get%sname(%d", request->flags & EP_PEER ? "peer" : "sock", request->fd);
        break;
    case EP_WRITE:
        text_add(text, "write(%d, ", request->fd);
        text_bytes(text, step->given, step->given_length);
        break;
    case EP_SETTIME: text_settime(text, request); break;
    case EP_DUP2: text_add(text, "dup2(%d, %d", request->fd, request->target); break;
    case EP_TICK:
        text_add(text, "tick(");
        text_time(text, request->value);
        break;
    case EP_SHUTDOWN: text_shutdown(text, request); break;
    case EP_SOCKET: text_add(text, "socket(%s", request->number == EP_TCP ? "tcp" : "unix"); break;
    case EP_BIND: case EP_CONNECT: text_naming(text, request); break;
    case EP_LISTEN: text_add(text, "listen(%d, %" PRId32, request->fd, request->number); break;
    case EP_ACCEPT: text_add(text, "accept4(%d", request->fd); break;
    case EP_DUP: case EP_CLOSE: case EP_GETTIME: case EP_SOCKERR:
        text_add(text, "%s(%d", names[request->event], request->fd);
        break;
    default: text_add(text, "%s(", names[request->event]);
    }
}

void text_call(struct text *text, const struct step *step) {
    text_words(text, step);
    text_flag(text, &step->request, EP_SEMAPHORE, "SEMAPHORE");
    text_flag(text, &step->request, EP_CLOEXEC, "CLOEXEC");
    text_add(text, ")");
    if (step->request.pid != 1) text_add(text, " in process %" PRIu64, step->request.pid);
}

static void text_reports(struct text *text, const struct steps *steps, const struct step *step) {
    text_add(text, "[");
    for (size_t i = 0; i < (size_t)step->result; i++) {
        const struct ep_report *report = &steps->reports[step->reports + i];
        text_add(text, i > 0 ? ", (" : "(");
        text_bits(text, report->events);
        text_add(text, ", %" PRIu64 ")", report->tag);
    }
    text_add(text, "]");
}

enum answer answer_of(const struct step *step) {
    if (step->result == EP_PARKED) return NOT_YET;
    if (step->result < 0) return AN_ERROR;
    switch (step->request.event) {
    case EP_PIPE: case EP_SOCKETPAIR: return TWO_NUMBERS;
    case EP_WAIT: case EP_RESUME: return REPORTS;
    case EP_READ: case EP_PEEK: return BYTES;
    case EP_SOCKNAME: return A_NAME;
    case EP_SETTIME: case EP_GETTIME: return TWO_TIMES;
    case EP_EVENTFD: case EP_TIMERFD: case EP_PLAIN: case EP_CREATE: case EP_SOCKET: case EP_ACCEPT: return A_NUMBER;
    case EP_WRITE: case EP_DUP: case EP_DUP2: case EP_FORK: case EP_SOCKERR: return A_NUMBER;
    default: return NOTHING;
    }
}

static void text_times(struct text *text, const struct step *step) {
    text_add(text, "(");
    text_time(text, step->value);
    text_add(text, ", ");
    text_time(text, step->interval);
    text_add(text, ")");
}

static void text_name_told(struct text *text, const struct step *step) {
    if (step->result == 0)
        text_add(text, "no name");
    else
        text_name(text, step->first, step->value);
}

void text_answer(struct text *text, const struct steps *steps, const struct step *step) {
    switch (answer_of(step)) {
    case NOT_YET: text_add(text, step->request.event == EP_WAIT ? "sleeps" : "sleeps on"); break;
    case AN_ERROR: text_add(text, "%s", error_name(-step->result)); break;
    case NOTHING: break;
    case A_NUMBER: text_add(text, "%" PRId64, step->result); break;
    case TWO_NUMBERS: text_add(text, "(%d, %d)", step->first, step->second); break;
    case TWO_TIMES: text_times(text, step); break;
    case BYTES: text_bytes(text, step->got, (uint64_t)step->result); break;
    case A_NAME: text_name_told(text, step); break;
    case REPORTS: text_reports(text, steps, step); break;
    }
}
