/* Reads and writes, and the calls on sockets that do no more than they. A call on a descriptor without O_NONBLOCK
   waits. */
#include "preload.h"

#include <limits.h>
#include <stdlib.h>
#include <sys/eventfd.h>
#include <sys/socket.h>
#include <sys/uio.h>
#include <sys/un.h>

FORWARD(read)
FORWARD(write)
FORWARD(readv)
FORWARD(writev)
FORWARD(recvfrom)
FORWARD(sendto)
FORWARD(recvmsg)
FORWARD(sendmsg)
FORWARD(shutdown)
FORWARD(getsockname)
FORWARD(getpeername)

/* So much goes in one event. So a line of the history stays short, two digits a byte; epaudit reads longer ones. */
enum { MOST_AT_ONCE = 16384 };

static size_t part_of(size_t count) { return count < MOST_AT_ONCE ? count : MOST_AT_ONCE; }

static bool has_copy(const struct description *description) {
    return description->kind == PIPE || description->kind == SOCKET;
}

/* So much of so many bytes can a read move. */
static size_t most_of(const struct description *description, size_t count) {
    bool counts = description->kind == EVENTFD || description->kind == TIMERFD;
    size_t most = counts ? sizeof(uint64_t) : description->waiting.count;
    return count < most ? count : most;
}

/* One event. What waits is kept twice: see copies.c. What can't be put anywhere stays. */
static ssize_t read_part(int fd, struct description *description, char *bytes, size_t count) {
    ssize_t got = -EBADF;
    lock_table();
    if (description->shown > 0) claim_shown(description);
    if (names(fd, description))
        got = can_write(bytes, most_of(description, count)) ? nippersage_read(self(), fd - FIRST, bytes, count)
                                                            : -EFAULT;
    if (got > 0 && has_copy(description)) drop_waiting(&description->waiting, (size_t)got);
    unlock_table();
    return got;
}

static ssize_t write_part(int fd, const struct description *description, const char *bytes, size_t count) {
    struct waiting *waiting;
    ssize_t taken = -EBADF;
    lock_table();
    waiting = has_copy(description) && description->peer ? &description->peer->waiting : NULL;
    if (names(fd, description) && description->access != O_RDONLY && !can_read(bytes, count)) {
        taken = -EFAULT;
    } else if (names(fd, description)) {
        taken = waiting && !make_room(waiting, count) ? -ENOMEM : nippersage_write(self(), fd - FIRST, bytes, count);
    }
    if (taken > 0 && waiting) add_waiting(waiting, bytes, (size_t)taken);
    unlock_table();
    return taken;
}

/* Reads what is there. */
static ssize_t read_some(int fd, struct description *description, char *bytes, size_t count) {
    size_t done = 0;
    ssize_t got;
    do {
        got = read_part(fd, description, bytes + done, part_of(count - done));
        if (got > 0) done += (size_t)got;
    } while (got == MOST_AT_ONCE && done < count);
    return done > 0 ? (ssize_t)done : got;
}

/* Shows what is there, and leaves it. Where nothing is, a read tells why, and takes nothing. */
static ssize_t peek_some(int fd, struct description *description, char *bytes, size_t count) {
    ssize_t got = -EBADF;
    char none;
    lock_table();
    if (description->shown > 0) claim_shown(description);
    if (names(fd, description))
        got = can_write(bytes, most_of(description, count))
                  ? (ssize_t)look_at_waiting(&description->waiting, bytes, count)
                  : -EFAULT;
    if (got == 0 && count > 0) got = nippersage_read(self(), fd - FIRST, &none, 1);
    unlock_table();
    return got;
}

/* Writes what has room. */
static ssize_t write_some(int fd, const struct description *description, const char *bytes, size_t count) {
    size_t done = 0;
    ssize_t taken;
    do {
        taken = write_part(fd, description, bytes + done, part_of(count - done));
        if (taken > 0) done += (size_t)taken;
    } while (taken == MOST_AT_ONCE && done < count);
    return done > 0 ? (ssize_t)done : taken;
}

/* The waits of a call that is to take at most so long; 0 is no end. One with an end is never begun again. */
static struct block begin_block(int64_t most, const char *call) {
    return (struct block){-1, call, most > 0 ? moment_now() + (uint64_t)most : FOREVER, most == 0};
}

static bool may_wait(const struct description *description, int flags) {
    return !(flags & MSG_DONTWAIT) && !description->is_nonblocking;
}

/* A pidfd has no bytes. */
static ssize_t not_of_pidfd(struct description *description) {
    let_go(description);
    return -EINVAL;
}

ssize_t take(int fd, char *bytes, size_t count, int flags, const char *call) {
    QUIET;
    struct description *description = hold(fd);
    struct block block;
    size_t done = 0;
    ssize_t got;
    bool goes_on = true;
    if (!description) return -EBADF;
    if (description->kind == PIDFD) return not_of_pidfd(description);
    description->is_read_here = true;
    block = begin_block(description->options.receive_time, call);
    while (goes_on) {
        got = flags & MSG_PEEK ? peek_some(fd, description, bytes, count)
                               : read_some(fd, description, bytes + done, count - done);
        if (got > 0) done += (size_t)got;
        goes_on = got == -EAGAIN ? may_wait(description, flags) : got > 0 && (flags & MSG_WAITALL) && done < count;
        if (got == -EAGAIN && !goes_on && has_children()) look_for_nothing();
        if (got != -EAGAIN || !goes_on) continue;
        got = wait_for_arrival(&block, fd, EPOLLIN);
        goes_on = got == 0;
    }
    end_block(&block);
    let_go(description);
    if (got == -EAGAIN && done == 0) count_vain();
    return done > 0 ? (ssize_t)done : got;
}

/* Whether a write that answered this is to go on. An eventfd takes all or nothing. */
static bool has_more(const struct description *description, ssize_t taken, bool is_done, int flags) {
    if (taken == -EAGAIN) return may_wait(description, flags);
    return taken > 0 && !is_done && description->kind != EVENTFD && may_wait(description, flags);
}

/* The signal comes unless a socket has taken something. */
static void send_pipe_signal(const struct description *description, size_t done, int flags) {
    if (!(flags & MSG_NOSIGNAL) && (done == 0 || description->kind == PIPE)) send_to_this_thread(SIGPIPE);
}

ssize_t give(int fd, const char *bytes, size_t count, int flags, const char *call) {
    QUIET;
    struct description *description = hold(fd);
    struct block block;
    size_t done = 0;
    ssize_t taken;
    bool goes_on = true;
    if (!description) return -EBADF;
    if (description->kind == PIDFD) return not_of_pidfd(description);
    block = begin_block(description->options.send_time, call);
    while (goes_on) {
        taken = write_some(fd, description, bytes + done, count - done);
        if (taken > 0) done += (size_t)taken;
        goes_on = has_more(description, taken, done == count, flags);
        if (taken == -EAGAIN && !goes_on && has_children()) look_for_nothing();
        if (taken != -EAGAIN || !goes_on) continue;
        taken = wait_for_arrival(&block, fd, EPOLLOUT);
        goes_on = taken == 0;
    }
    end_block(&block);
    if (taken == -EPIPE) send_pipe_signal(description, done, flags);
    let_go(description);
    if (taken == -EAGAIN && done == 0) count_vain();
    return done > 0 ? (ssize_t)done : taken;
}

/* How many bytes vectors have, or minus an error number. */
static ssize_t bytes_in(const struct iovec *vectors, int count) {
    size_t sum = 0;
    if (count < 0 || count > IOV_MAX) return -EINVAL;
    if (!can_read(vectors, (size_t)count * sizeof *vectors)) return -EFAULT;
    for (int i = 0; i < count; i++) {
        if (vectors[i].iov_len > (size_t)SSIZE_MAX - sum) return -EINVAL;
        sum += vectors[i].iov_len;
    }
    return (ssize_t)sum;
}

/* Whether as much of vectors can be written as one read moves. */
static bool can_write_vectors(const struct iovec *vectors, size_t count) {
    const struct nippersage_limits *limits = &settings()->limits;
    size_t most = limits->pipe_bytes > limits->sock_bytes ? limits->pipe_bytes : limits->sock_bytes;
    if (count > most) count = most;
    for (; count > 0; vectors++) {
        size_t part = count < vectors->iov_len ? count : vectors->iov_len;
        if (!can_write(vectors->iov_base, part)) return false;
        count -= part;
    }
    return true;
}

/* Vectors are one buffer: so a write of at most PIPE_BUF bytes to a pipe is whole. */
static ssize_t take_vectors(int fd, const struct iovec *vectors, int count, int flags, const char *call) {
    QUIET;
    ssize_t size = bytes_in(vectors, count), got, done = 0;
    char *bytes = size < 0 ? NULL : malloc(size > 0 ? (size_t)size : 1);
    if (!bytes) return size < 0 ? size : -ENOMEM;
    got = can_write_vectors(vectors, (size_t)size) ? take(fd, bytes, (size_t)size, flags, call) : -EFAULT;
    for (int i = 0; done < got; i++) {
        size_t part = (size_t)(got - done) < vectors[i].iov_len ? (size_t)(got - done) : vectors[i].iov_len;
        if (part > 0 && !can_write(vectors[i].iov_base, part)) break;
        if (part > 0) memcpy(vectors[i].iov_base, bytes + done, part);
        done += (ssize_t)part;
    }
    free(bytes);
    return done < got ? done : got;
}

static ssize_t give_vectors(int fd, const struct iovec *vectors, int count, int flags, const char *call) {
    QUIET;
    ssize_t size = bytes_in(vectors, count), taken = 0;
    char *bytes = size < 0 ? NULL : malloc(size > 0 ? (size_t)size : 1), *next = bytes;
    if (!bytes) return size < 0 ? size : -ENOMEM;
    for (int i = 0; i < count && taken == 0; i++) {
        if (!can_read(vectors[i].iov_base, vectors[i].iov_len)) {
            taken = -EFAULT;
        } else if (vectors[i].iov_len > 0) {
            memcpy(next, vectors[i].iov_base, vectors[i].iov_len);
            next += vectors[i].iov_len;
        }
    }
    if (taken == 0) taken = give(fd, bytes, (size_t)size, flags, call);
    free(bytes);
    return taken;
}

/* ---- files ---- */

static ssize_t read_real(int fd, void *bytes, size_t count) {
    return answer_unless_lost(IN_TIME(fd, SO_RCVTIMEO, 0, next_read()(fd, bytes, count)), "read", fd);
}

ssize_t read(int fd, void *bytes, size_t count) {
    ssize_t got;
    if (!is_simulated(fd)) return read_real(fd, bytes, count);
    QUIET;
    got = take(fd, bytes, count, 0, "read");
    return ANSWER(got, "read(%d, %s, %zu)", fd, bytes_text(TEXT, bytes, got), count);
}

static ssize_t write_real(int fd, const void *bytes, size_t count) {
    return answer_unless_lost(IN_TIME(fd, SO_SNDTIMEO, 0, next_write()(fd, bytes, count)), "write", fd);
}

ssize_t write(int fd, const void *bytes, size_t count) {
    ssize_t taken;
    if (!is_simulated(fd)) return write_real(fd, bytes, count);
    QUIET;
    taken = give(fd, bytes, count, 0, "write");
    return ANSWER(taken, "write(%d, %s, %zu)", fd, bytes_text(TEXT, bytes, (ssize_t)count), count);
}

ssize_t readv(int fd, const struct iovec *vectors, int count) {
    ssize_t got;
    if (!is_simulated(fd))
        return answer_unless_lost(IN_TIME(fd, SO_RCVTIMEO, 0, next_readv()(fd, vectors, count)), "readv", fd);
    QUIET;
    got = take_vectors(fd, vectors, count, 0, "readv");
    return ANSWER(got, "readv(%d, ..., %d)", fd, count);
}

ssize_t writev(int fd, const struct iovec *vectors, int count) {
    ssize_t taken;
    if (!is_simulated(fd))
        return answer_unless_lost(IN_TIME(fd, SO_SNDTIMEO, 0, next_writev()(fd, vectors, count)), "writev", fd);
    QUIET;
    taken = give_vectors(fd, vectors, count, 0, "writev");
    return ANSWER(taken, "writev(%d, ..., %d)", fd, count);
}

/* What the C library makes of read in a program that was compiled with _FORTIFY_SOURCE. */
ssize_t __read_chk(int fd, void *bytes, size_t count, size_t room);
ssize_t __read_chk(int fd, void *bytes, size_t count, size_t room) {
    if (count > room) abort();
    return read(fd, bytes, count);
}

int eventfd_read(int fd, eventfd_t *value) { return read(fd, value, sizeof *value) == sizeof *value ? 0 : -1; }

int eventfd_write(int fd, eventfd_t value) { return write(fd, &value, sizeof value) == sizeof value ? 0 : -1; }

/* ---- sockets ---- */

/* 0 where a descriptor is a simulated socket, else minus an error number. */
static int not_a_socket(int fd) {
    struct description *description = hold(fd);
    int status = !description ? -EBADF : description->kind != SOCKET ? -ENOTSOCK : 0;
    if (description) let_go(description);
    return status;
}

/* Whether flags are simulated. A look at all of so many bytes isn't. */
static bool receives_with(int flags) {
    if ((flags & MSG_PEEK) && (flags & MSG_WAITALL)) return false;
    return (flags & ~(MSG_NOSIGNAL | MSG_DONTWAIT | MSG_CMSG_CLOEXEC | MSG_PEEK | MSG_WAITALL)) == 0;
}

static bool sends_with(int flags) { return (flags & ~(MSG_NOSIGNAL | MSG_DONTWAIT)) == 0; }

ssize_t recvfrom(int fd, void *bytes, size_t count, int flags, struct sockaddr *from, socklen_t *size) {
    ssize_t got;
    if (!is_simulated(fd))
        return IN_TIME(fd, SO_RCVTIMEO, flags, next_recvfrom()(fd, bytes, count, flags, from, size));
    QUIET;
    if (!receives_with(flags)) return refuse(EOPNOTSUPP, "recv(%d) with flags %#x is not simulated", fd, flags);
    got = from && !WRITABLE(size) ? -EFAULT : not_a_socket(fd);
    if (got == 0) got = take(fd, bytes, count, flags, "recv");
    if (got >= 0 && from) *size = 0;
    return ANSWER(got, "recv(%d, %s, %zu, %#x)", fd, bytes_text(TEXT, bytes, got), count, flags);
}

ssize_t recv(int fd, void *bytes, size_t count, int flags) { return recvfrom(fd, bytes, count, flags, NULL, NULL); }

ssize_t __recv_chk(int fd, void *bytes, size_t count, size_t room, int flags);
ssize_t __recv_chk(int fd, void *bytes, size_t count, size_t room, int flags) {
    if (count > room) abort();
    return recv(fd, bytes, count, flags);
}

ssize_t sendto(int fd, const void *bytes, size_t count, int flags, const struct sockaddr *to, socklen_t size) {
    ssize_t taken;
    if (!is_simulated(fd)) return IN_TIME(fd, SO_SNDTIMEO, flags, next_sendto()(fd, bytes, count, flags, to, size));
    QUIET;
    if (!sends_with(flags)) return refuse(EOPNOTSUPP, "send(%d) with flags %#x is not simulated", fd, flags);
    taken = to ? -EISCONN : not_a_socket(fd);
    if (taken == 0) taken = give(fd, bytes, count, flags, "send");
    return ANSWER(taken, "send(%d, %s, %zu, %#x)", fd, bytes_text(TEXT, bytes, (ssize_t)count), count, flags);
}

ssize_t send(int fd, const void *bytes, size_t count, int flags) { return sendto(fd, bytes, count, flags, NULL, 0); }

ssize_t recvmsg(int fd, struct msghdr *message, int flags) {
    ssize_t got;
    if (!is_simulated(fd)) return IN_TIME(fd, SO_RCVTIMEO, flags, next_recvmsg()(fd, message, flags));
    QUIET;
    if (!receives_with(flags)) return refuse(EOPNOTSUPP, "recvmsg(%d) with flags %#x is not simulated", fd, flags);
    got = WRITABLE(message) ? not_a_socket(fd) : -EFAULT;
    if (got == 0)
        got = take_vectors(fd, message->msg_iov, (int)message->msg_iovlen, flags, "recvmsg");
    if (got >= 0) message->msg_namelen = message->msg_controllen = message->msg_flags = 0;
    return ANSWER(got, "recvmsg(%d, ..., %#x)", fd, flags);
}

ssize_t sendmsg(int fd, const struct msghdr *message, int flags) {
    ssize_t taken;
    if (!is_simulated(fd)) return IN_TIME(fd, SO_SNDTIMEO, flags, next_sendmsg()(fd, message, flags));
    QUIET;
    if (!READABLE(message)) return ANSWER(-EFAULT, "sendmsg(%d, %p, %#x)", fd, (const void *)message, flags);
    if (!sends_with(flags)) return refuse(EOPNOTSUPP, "sendmsg(%d) with flags %#x is not simulated", fd, flags);
    if (message->msg_controllen > 0)
        return refuse(EOPNOTSUPP, "sendmsg(%d): control messages, as of descriptors, are not simulated", fd);
    taken = message->msg_name ? -EISCONN : not_a_socket(fd);
    if (taken == 0)
        taken = give_vectors(fd, message->msg_iov, (int)message->msg_iovlen, flags, "sendmsg");
    return ANSWER(taken, "sendmsg(%d, ..., %#x)", fd, flags);
}

/* A child that reads there has to hear of it. */
static void note_shut(struct description *description) {
    lock_table();
    description->is_shut = true;
    unlock_table();
}

static void note_peer_shut(struct description *description) {
    lock_table();
    if (description->peer) description->peer->is_shut = true;
    unlock_table();
}

/* Nothing is written any more to an end that is shut for reading. */
static int shut(int fd, int how) {
    struct description *description = hold(fd);
    int status = !description ? -EBADF : description->kind != SOCKET ? -ENOTSOCK : 0;
    if (status == 0) status = nippersage_shutdown(self(), fd - FIRST, how);
    if (status == 0 && how != SHUT_RD) note_shut(description);
    if (status == 0 && how != SHUT_WR) note_peer_shut(description);
    if (description) let_go(description);
    return status;
}

int shutdown(int fd, int how) {
    if (!is_simulated(fd)) return next_shutdown()(fd, how);
    QUIET;
    return (int)ANSWER(shut(fd, how), "shutdown(%d, %d)", fd, how);
}

/* The name of a socket that has none. */
static int tell_no_name(int fd, struct sockaddr *name, socklen_t *size) {
    static const struct sockaddr_un unnamed = {.sun_family = AF_UNIX};
    int status = not_a_socket(fd);
    if (status == 0 && (!WRITABLE(size) || !can_write(name, *size < sizeof(sa_family_t) ? *size : sizeof(sa_family_t))))
        status = -EFAULT;
    if (status == 0 && (int)*size < 0) status = -EINVAL;
    if (status == 0) {
        memcpy(name, &unnamed, *size < sizeof(sa_family_t) ? *size : sizeof(sa_family_t));
        *size = sizeof(sa_family_t);
    }
    return status;
}

int getsockname(int fd, struct sockaddr *name, socklen_t *size) {
    if (!is_simulated(fd)) return next_getsockname()(fd, name, size);
    QUIET;
    return (int)ANSWER(tell_no_name(fd, name, size), "getsockname(%d)", fd);
}

int getpeername(int fd, struct sockaddr *name, socklen_t *size) {
    if (!is_simulated(fd)) return next_getpeername()(fd, name, size);
    QUIET;
    return (int)ANSWER(tell_no_name(fd, name, size), "getpeername(%d)", fd);
}
