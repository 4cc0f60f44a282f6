/* sendfile and splice between a real file and a simulated pipe or socket, or between two simulated ones. Bytes go
   through a buffer here. None is taken from where it can't be put back before there is room for it. */
#include "preload.h"

#include <poll.h>
#include <sys/sendfile.h>
#include <sys/socket.h>
#include <sys/stat.h>

FORWARD(lseek)
FORWARD(poll)
FORWARD(pread)
FORWARD(pwrite)
FORWARD(read)
FORWARD(sendfile)
FORWARD(splice)
FORWARD(write)

enum { AT_ONCE = 4096 };

/* ---- sendfile ---- */

static ssize_t plain(ssize_t result) { return result < 0 ? -errno : result; }

/* From a place of a real file on. */
static ssize_t send_from(int to, int from, off_t at, size_t count) {
    char room[16384];
    size_t done = 0;
    ssize_t got, taken = 0;
    do {
        size_t part = count - done < sizeof room ? count - done : sizeof room;
        got = plain(next_pread()(from, room, part, at + (off_t)done));
        taken = got > 0 ? give(to, room, (size_t)got, 0, "sendfile") : got;
        if (taken > 0) done += (size_t)taken;
    } while (taken > 0 && taken == got && done < count);
    return done > 0 ? (ssize_t)done : taken;
}

ssize_t sendfile(int to, int from, off_t *at, size_t count) {
    off_t place;
    ssize_t sent;
    if (!is_simulated(to) && !is_simulated(from)) return next_sendfile()(to, from, at, count);
    if (!WRITABLE_OR_NULL(at)) return ANSWER(-EFAULT, "sendfile(%d, %d, %p, %zu)", to, from, (void *)at, count);
    if (is_simulated(from))
        return refuse(EINVAL, "sendfile(%d, %d) out of a simulated descriptor is not simulated", to, from);
    place = at ? *at : next_lseek()(from, 0, SEEK_CUR);
    if (place < 0) return refuse(EINVAL, "sendfile(%d, %d) out of what has no places is not simulated", to, from);
    sent = send_from(to, from, place, count);
    if (sent > 0 && at) *at = place + sent;
    if (sent > 0 && !at) next_lseek()(from, place + sent, SEEK_SET);
    return ANSWER(sent, "sendfile(%d, %d, ..., %zu)", to, from, count);
}

_Static_assert(sizeof(off_t) == sizeof(off64_t), "on x86-64 they are one");

ssize_t sendfile64(int to, int from, off64_t *at, size_t count) { return sendfile(to, from, at, count); }

/* ---- splice ---- */

/* One end of a splice. */
struct end {
    int fd;
    off64_t *at;
    bool is_pipe;
    bool waits;
    struct description *description; /* held; NULL where the descriptor is real */
};

/* 0, or minus an error number. */
static int begin_end(struct end *end, int fd, off64_t *at, int access, bool waits) {
    struct stat status;
    *end = (struct end){fd, at, false, waits, NULL};
    if (!is_simulated(fd)) {
        if (fstat(fd, &status) != 0) return -errno;
        end->is_pipe = S_ISFIFO(status.st_mode);
        end->waits = waits && !(fcntl(fd, F_GETFL) & O_NONBLOCK);
        return at && end->is_pipe ? -ESPIPE : 0;
    }
    end->description = hold(fd);
    if (!end->description) return -EBADF;
    end->is_pipe = end->description->kind == PIPE;
    end->waits = waits && !end->description->is_nonblocking;
    if (!end->is_pipe && end->description->kind != SOCKET) return -EINVAL;
    if (end->description->access != access && end->description->access != O_RDWR) return -EBADF;
    return at ? (end->is_pipe ? -ESPIPE : -EINVAL) : 0;
}

static void end_end(const struct end *end) {
    if (end->description) let_go(end->description);
}

/* How many bytes fit in, at a simulated end: none where nobody reads any more, for a write tells that. */
static size_t room_at(const struct end *to) {
    const struct nippersage_limits *limits = &settings()->limits;
    size_t most = to->description->kind == PIPE ? limits->pipe_bytes : limits->sock_bytes, room = 0;
    lock_table();
    if (to->description->peer) room = most - to->description->peer->waiting.count;
    unlock_table();
    return room;
}

/* Waits until an end can be read from or written to. 0, or minus an error number. */
static int wait_for_end(const struct end *end, bool writes) {
    struct block block = {-1, "splice", FOREVER, true};
    struct pollfd file = {end->fd, writes ? POLLOUT : POLLIN, 0};
    int status;
    if (!end->description) return next_poll()(&file, 1, end->waits ? -1 : 0) == 1 ? 0 : -EAGAIN;
    if (!end->waits) return -EAGAIN;
    status = wait_for_arrival(&block, end->fd, writes ? EPOLLOUT : EPOLLIN);
    end_block(&block);
    return status;
}

/* Reads from a real end. */
static ssize_t get(const struct end *from, char *bytes, size_t count) {
    ssize_t got;
    if (from->at) {
        got = plain(next_pread()(from->fd, bytes, count, *from->at));
        if (got > 0) *from->at += got;
        return got;
    }
    return plain(next_read()(from->fd, bytes, count));
}

/* Writes all to a real end, which may wait, for the bytes have nowhere else to go. */
static ssize_t put(const struct end *to, const char *bytes, size_t count) {
    size_t done = 0;
    while (done < count) {
        struct pollfd file = {to->fd, POLLOUT, 0};
        ssize_t taken = plain(to->at ? next_pwrite()(to->fd, bytes + done, count - done, *to->at)
                                     : next_write()(to->fd, bytes + done, count - done));
        if (taken == -EAGAIN) {
            next_poll()(&file, 1, -1);
        } else if (taken < 0 && taken != -EINTR) {
            return done > 0 ? (ssize_t)done : taken;
        } else if (taken > 0) {
            done += (size_t)taken;
            if (to->at) *to->at += taken;
        }
    }
    return (ssize_t)done;
}

/* A part from a real end to a simulated one, which has to have room for it. */
static ssize_t splice_in(const struct end *from, const struct end *to, size_t count) {
    char bytes[AT_ONCE];
    size_t room = room_at(to);
    ssize_t got;
    if (room == 0 && to->description->peer) return -EAGAIN;
    if (count > sizeof bytes) count = sizeof bytes;
    if (room > 0 && count > room) count = room;
    got = from->waits || from->at ? 0 : wait_for_end(from, false);
    if (got == 0) got = get(from, bytes, count);
    return got > 0 ? give(to->fd, bytes, (size_t)got, 0, "splice") : got;
}

/* A part from a simulated end to another one: what fits. */
static ssize_t splice_out(const struct end *from, const struct end *to, size_t count) {
    char bytes[AT_ONCE];
    size_t room = to->description ? room_at(to) : sizeof bytes;
    ssize_t got;
    if (count > sizeof bytes) count = sizeof bytes;
    if (to->description && to->description->peer && room == 0) return -EAGAIN;
    if (room > 0 && count > room) count = room;
    got = take(from->fd, bytes, count, MSG_DONTWAIT, "splice");
    if (got <= 0) return got;
    return to->description ? give(to->fd, bytes, (size_t)got, 0, "splice") : put(to, bytes, (size_t)got);
}

/* Whether the next part has to wait for the end that is written to, and not for the other one. */
static bool is_full(const struct end *to) {
    if (!to->description) return wait_for_end(&(struct end){.fd = to->fd}, true) != 0;
    return to->description->peer && room_at(to) == 0;
}

static ssize_t move(const struct end *from, const struct end *to, size_t count) {
    size_t done = 0;
    ssize_t moved = 0;
    int status = 0;
    while (done < count && status == 0) {
        bool waits_to_write = is_full(to);
        moved = waits_to_write ? -EAGAIN : from->description ? splice_out(from, to, count - done)
                                                             : splice_in(from, to, count - done);
        if (moved > 0) done += (size_t)moved;
        if (moved == 0 || (moved < 0 && moved != -EAGAIN) || (moved == -EAGAIN && done > 0)) break;
        if (moved == -EAGAIN) status = wait_for_end(waits_to_write ? to : from, waits_to_write);
    }
    if (done > 0) return (ssize_t)done;
    return status < 0 ? status : moved;
}

static bool is_one_pipe(const struct end *from, const struct end *to) {
    return from->is_pipe && from->description && to->description && from->description->peer == to->description;
}

ssize_t splice(int in, off64_t *at, int out, off64_t *onto, size_t count, unsigned int flags) {
    struct end from, to;
    ssize_t moved;
    if (!is_simulated(in) && !is_simulated(out)) return next_splice()(in, at, out, onto, count, flags);
    if (!WRITABLE_OR_NULL(at) || !WRITABLE_OR_NULL(onto)) return ANSWER(-EFAULT, "splice(%d, %d)", in, out);
    moved = begin_end(&from, in, at, O_RDONLY, !(flags & SPLICE_F_NONBLOCK));
    if (moved == 0) {
        moved = begin_end(&to, out, onto, O_WRONLY, !(flags & SPLICE_F_NONBLOCK));
        if (moved == 0 && !from.is_pipe && !to.is_pipe) moved = -EINVAL;
        if (moved == 0 && is_one_pipe(&from, &to)) moved = -EINVAL;
        if (moved == 0) moved = move(&from, &to, count);
        end_end(&to);
    }
    end_end(&from);
    return ANSWER(moved, "splice(%d, ..., %d, ..., %zu, %#x)", in, out, count, flags);
}
