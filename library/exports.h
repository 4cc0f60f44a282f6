/* The functions of the crate ep_exports, as C declares them. Their contracts are in its src/; nothing checks that these
   declarations fit them but the tests. Moments and times are numbers of microseconds. This header is for nippersage.c
   alone. */
#ifndef NIPPERSAGE_EXPORTS_H
#define NIPPERSAGE_EXPORTS_H

#include <stddef.h>
#include <stdint.h>

struct ep_handle {
    uint64_t mark;
    void *at;
};
struct ep_limits {
    uint32_t descriptors, files, processes, watches, pipe_bytes, sock_bytes;
};
struct ep_request {
    uint64_t pid, value, interval;
    int64_t timeout;
    uint32_t event, caller;
    int32_t fd, target, number;
    uint32_t count, flags;
};
struct ep_reply {
    int64_t result;
    int32_t first, second;
    uint64_t value, interval, now;
};
struct ep_report {
    uint32_t events;
    uint64_t tag;
};
struct ep_watch {
    uint64_t tag, reported_in;
    uint32_t reported_to;
    int32_t fd;
    uint32_t mask, shown, is_armed, is_reportable;
};
enum {
    EP_PIPE = 1, EP_EVENTFD, EP_TIMERFD, EP_SOCKETPAIR, EP_PLAIN, EP_CREATE, EP_CTL, EP_WAIT, EP_READ, EP_WRITE,
    EP_SHUTDOWN, EP_SETTIME, EP_GETTIME, EP_DUP, EP_DUP2, EP_CLOSE, EP_FORK, EP_EXEC, EP_EXIT, EP_RESUME, EP_TICK,
    EP_SOCKET, EP_BIND, EP_LISTEN, EP_CONNECT, EP_ACCEPT, EP_PEEK, EP_SOCKNAME, EP_SOCKERR
};
enum { EP_SHUT_READ = 0, EP_SHUT_WRITE = 1, EP_SHUT_BOTH = 2 };
enum { EP_V4 = 0, EP_V6 = 1, EP_LOCAL = 2 };
enum { EP_TCP = 0, EP_UNIX = 1 };
enum { EP_CLOEXEC = 1, EP_SEMAPHORE = 2, EP_ABSOLUTE = 4, EP_PEER = 8 };
enum { EP_PARKED = -4096, EP_CONNECTING = -115 };

int32_t ep_open(const struct ep_limits *limits, struct ep_handle *handle);
int32_t ep_close(struct ep_handle *handle);
int32_t ep_reserve(struct ep_handle *handle, size_t additional);
int32_t ep_call(struct ep_handle *handle, const struct ep_request *request, const uint8_t *given, size_t given_length,
                struct ep_reply *reply, uint8_t *bytes, size_t bytes_length, struct ep_report *reports,
                size_t reports_length);
int32_t ep_now(struct ep_handle *handle, uint64_t *moment);
int32_t ep_is_parked(struct ep_handle *handle, uint32_t caller);
int32_t ep_is_marked(struct ep_handle *handle, uint32_t caller);
int32_t ep_first_marked(struct ep_handle *handle, uint32_t *caller);
int32_t ep_next_moment(struct ep_handle *handle, uint64_t *moment);
int32_t ep_watches(struct ep_handle *handle, uint64_t pid, int32_t fd, struct ep_watch *room, size_t room_length,
                   size_t *count);
int32_t ep_watches_awaited(struct ep_handle *handle, uint32_t caller, struct ep_watch *room, size_t room_length,
                           size_t *count);
int32_t ep_records(struct ep_handle *handle, size_t *count);
int32_t ep_recorded(struct ep_handle *handle, size_t place, struct ep_reply *reply, uint8_t *bytes, size_t bytes_length,
                    struct ep_report *reports, size_t reports_length);
int32_t ep_line(struct ep_handle *handle, size_t place, uint8_t *line, size_t line_length, size_t *size);
int32_t ep_forget(struct ep_handle *handle);
int32_t ep_check(struct ep_handle *handle);

#endif
