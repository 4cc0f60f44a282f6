/* Real sockets with a timeout: calls that make connections, and those that take or give many messages. Each wait of
   theirs is one on what is outside, as threads.c has it. What has many messages makes a call for each: so each has its
   own wait, as on Linux. A simulated socket has neither. */
#include "children.h"

#include <sys/socket.h>

FORWARD(accept)
FORWARD(accept4)
FORWARD(connect)
FORWARD(recvmmsg)
FORWARD(sendmmsg)

static int refuse_simulated(const char *call, int fd, int error) {
    return refuse(error, "%s(%d) is not simulated", call, fd);
}

/* ---- connections ---- */

int accept(int fd, struct sockaddr *from, socklen_t *size) {
    if (is_simulated(fd)) return refuse_simulated("accept", fd, EINVAL);
    return IN_TIME(fd, SO_RCVTIMEO, 0, next_accept()(fd, from, size));
}

int accept4(int fd, struct sockaddr *from, socklen_t *size, int flags) {
    if (is_simulated(fd)) return refuse_simulated("accept4", fd, EINVAL);
    return IN_TIME(fd, SO_RCVTIMEO, 0, next_accept4()(fd, from, size, flags));
}

int connect(int fd, const struct sockaddr *to, socklen_t size) {
    if (is_simulated(fd)) return refuse_simulated("connect", fd, EISCONN);
    return IN_TIME(fd, SO_SNDTIMEO, 0, next_connect()(fd, to, size));
}

/* ---- many messages ---- */

/* As many does Linux take at once. */
enum { MOST_MESSAGES = 1024 };

/* The time of recvmmsg. It is looked at when a message has come, and ends no wait. */
struct deadline {
    struct timespec *time; /* the program's, or NULL */
    uint64_t end;          /* by the simulated clock */
    int64_t units;         /* of real time */
    uint64_t began;
};

static struct deadline begin_deadline(struct timespec *time) {
    struct deadline deadline = {.time = time};
    if (!time) return deadline;
    deadline.units = units_of(time);
    deadline.end = moment_now() + (uint64_t)deadline.units;
    deadline.began = real_moment();
    return deadline;
}

/* Tells how much of it is left. */
static bool is_over(const struct deadline *deadline) {
    int64_t left = deadline->units - (int64_t)(real_moment() - deadline->began);
    if (!deadline->time) return false;
    if (moment_now() >= deadline->end) left = 0;
    *deadline->time = timespec_of(left > 0 ? (uint64_t)left : 0);
    return left <= 0;
}

/* The clock goes no faster than real time until the end of all, and then to it. */
static int receive_by(const struct deadline *deadline, int fd, struct mmsghdr *to, int flags) {
    uint64_t now = moment_now();
    struct timed outside;
    bool is_late;
    int got;
    begin_outside(&outside, deadline->end > now ? (int64_t)(deadline->end - now) : 0, true);
    got = CANCELLABLE(&outside, next_recvmmsg()(fd, to, 1, flags, NULL));
    is_late = is_over(deadline);
    end_outside(&outside, got > 0 && is_late);
    return got;
}

static int receive_one(const struct deadline *deadline, int fd, struct mmsghdr *to, int flags) {
    bool has_timeout = timeout_of_real(fd, SO_RCVTIMEO, flags) > 0;
    if (!has_timeout && deadline->time) return receive_by(deadline, fd, to, flags);
    return IN_TIME(fd, SO_RCVTIMEO, flags, next_recvmmsg()(fd, to, 1, flags, NULL));
}

static int receive_each(int fd, struct mmsghdr *to, unsigned int count, int flags, struct timespec *time) {
    struct deadline deadline = begin_deadline(time);
    unsigned int done = 0;
    int got = 1;
    while (done < count && got > 0) {
        got = receive_one(&deadline, fd, &to[done], flags & ~MSG_WAITFORONE);
        if (got <= 0) break;
        done++;
        if (flags & MSG_WAITFORONE) flags |= MSG_DONTWAIT;
        if (is_over(&deadline)) break;
    }
    return done > 0 ? (int)done : got;
}

int recvmmsg(int fd, struct mmsghdr *to, unsigned int count, int flags, struct timespec *time) {
    if (is_simulated(fd)) return refuse_simulated("recvmmsg", fd, EOPNOTSUPP);
    if (is_outside || (!time && !has_timeouts) || count == 0 || !WRITABLE_OR_NULL(time) || (time && units_of(time) < 0))
        return next_recvmmsg()(fd, to, count, flags, time);
    return receive_each(fd, to, count < MOST_MESSAGES ? count : MOST_MESSAGES, flags, time);
}

static int send_one(int fd, struct mmsghdr *from, int flags) {
    return IN_TIME(fd, SO_SNDTIMEO, flags, next_sendmmsg()(fd, from, 1, flags));
}

int sendmmsg(int fd, struct mmsghdr *from, unsigned int count, int flags) {
    unsigned int done = 0;
    int sent = 1;
    if (is_simulated(fd)) return refuse_simulated("sendmmsg", fd, EOPNOTSUPP);
    if (is_outside || !has_timeouts || count == 0) return next_sendmmsg()(fd, from, count, flags);
    while (done < count && done < MOST_MESSAGES && sent > 0) {
        sent = send_one(fd, &from[done], flags);
        if (sent > 0) done++;
    }
    return done > 0 ? (int)done : sent;
}
