/* Options of simulated sockets. They are kept and told as Linux does for a pair of Unix stream sockets, where they have
   no effect there either, or none that a program sees. Others are refused. */
#include "preload.h"

#include <sys/socket.h>
#include <sys/time.h>

FORWARD(fcntl)
FORWARD(getsockopt)
FORWARD(setsockopt)

/* Linux keeps twice what is asked for, within these bounds; the first is what it begins with. */
enum { ROOM = 212992, LEAST_SEND = 4608, LEAST_RECEIVE = 2304, MOST_PRIORITY = 6 };
/* Timeouts of 64 bits have other numbers on machines of 32 bits, and are the same here. */
enum { SO_RECEIVE_TIME = 66, SO_SEND_TIME = 67 };

/* On or off, without an effect on a Unix stream. */
static bool is_switch(int option) {
    return option == SO_KEEPALIVE || option == SO_REUSEADDR || option == SO_BROADCAST || option == SO_DONTROUTE ||
           option == SO_OOBINLINE;
}

/* An option's value, as it goes through the pointer of a call. */
union value {
    int number;
    struct linger linger;
    struct timeval time;
    struct ucred peer;
};

/* ---- telling ---- */

static int tell_number(const struct options *options, int option) {
    if (is_switch(option)) return options->switches >> option & 1;
    switch (option) {
    case SO_DOMAIN: return AF_UNIX;
    case SO_TYPE: return SOCK_STREAM;
    case SO_SNDBUF: return options->send_room ? options->send_room : ROOM;
    case SO_RCVBUF: return options->receive_room ? options->receive_room : ROOM;
    case SO_PRIORITY: return options->priority;
    case SO_RCVLOWAT:
    case SO_SNDLOWAT: return 1;
    case SO_PROTOCOL:
    case SO_ERROR:
    case SO_ACCEPTCONN:
    case SO_PASSCRED: return 0;
    default: return -1;
    }
}

static struct timeval timeval_of(int64_t units) {
    struct timespec time = timespec_of((uint64_t)units);
    return (struct timeval){time.tv_sec, time.tv_nsec / 1000};
}

/* The size of the value, or 0 where the option isn't simulated. */
static socklen_t tell(const struct options *options, int option, union value *value) {
    switch (option) {
    case SO_RCVTIMEO:
    case SO_RECEIVE_TIME: value->time = timeval_of(options->receive_time); return sizeof value->time;
    case SO_SNDTIMEO:
    case SO_SEND_TIME: value->time = timeval_of(options->send_time); return sizeof value->time;
    case SO_LINGER:
        value->linger = (struct linger){options->linger.on, options->linger.seconds};
        return sizeof value->linger;
    case SO_PEERCRED: value->peer = (struct ucred){getpid(), geteuid(), getegid()}; return sizeof value->peer;
    default: value->number = tell_number(options, option); return value->number < 0 ? 0 : sizeof value->number;
    }
}

/* The description of a simulated socket, held, or NULL and minus an error number. */
static struct description *hold_socket(int fd, int *status) {
    struct description *description = hold(fd);
    *status = !description ? -EBADF : description->kind != SOCKET ? -ENOTSOCK : 0;
    if (*status == 0) return description;
    if (description) let_go(description);
    return NULL;
}

int getsockopt(int fd, int level, int option, void *restrict value, socklen_t *restrict size) {
    struct description *description;
    union value told;
    socklen_t room = 0;
    int status;
    if (!is_simulated(fd)) return next_getsockopt()(fd, level, option, value, size);
    QUIET;
    if (!WRITABLE(size)) return (int)ANSWER(-EFAULT, "getsockopt(%d, %d, %d, %p)", fd, level, option, (void *)size);
    description = hold_socket(fd, &status);
    if (description) {
        room = level == SOL_SOCKET ? tell(&description->options, option, &told) : 0;
        let_go(description);
        /* A Unix socket has options of no other level. */
        if (level != SOL_SOCKET) status = -EOPNOTSUPP;
        if (level == SOL_SOCKET && room == 0)
            return refuse(ENOPROTOOPT, "getsockopt(%d, SOL_SOCKET, %d) is not simulated", fd, option);
        if (status == 0 && (int)*size < 0) status = -EINVAL;
        if (status == 0 && !can_write(value, *size < room ? *size : room)) status = -EFAULT;
    }
    if (status == 0) memcpy(value, &told, *size = *size < room ? *size : room);
    return (int)ANSWER(status, "getsockopt(%d, %d, %d)", fd, level, option);
}

/* ---- setting ---- */

/* Minus this is an error number that is told with a line. */
enum { REFUSED = 100000 };

static int room_for(int asked, int least) {
    int most = asked < 0 || asked > ROOM ? ROOM : asked;
    return 2 * most > least ? 2 * most : least;
}

/* Below 0 no time is there at all, which is kept as the shortest one. */
static int set_time(int64_t *kept, const struct timeval *time) {
    struct timespec given = {time->tv_sec, time->tv_usec * 1000};
    if (time->tv_usec < 0 || time->tv_usec >= 1000000) return -EDOM;
    *kept = time->tv_sec < 0 ? 1 : units_of(&given);
    return 0;
}

static int set_number(struct options *options, int option, int number) {
    if (is_switch(option)) {
        options->switches = (options->switches & ~(UINT32_C(1) << option)) | (uint32_t)(number != 0) << option;
        return 0;
    }
    switch (option) {
    case SO_SNDBUF: options->send_room = room_for(number, LEAST_SEND); return 0;
    case SO_RCVBUF: options->receive_room = room_for(number, LEAST_RECEIVE); return 0;
    case SO_PRIORITY:
        if (number < 0 || number > MOST_PRIORITY) return -EPERM;
        options->priority = number;
        return 0;
    case SO_RCVLOWAT: return number == 0 || number == 1 ? 0 : -REFUSED;
    case SO_PASSCRED: return number == 0 ? 0 : -REFUSED;
    case SO_TYPE:
    case SO_DOMAIN:
    case SO_PROTOCOL:
    case SO_ERROR:
    case SO_ACCEPTCONN:
    case SO_PEERCRED:
    case SO_SNDLOWAT: return -ENOPROTOOPT;
    default: return -REFUSED;
    }
}

static int set(struct options *options, int option, const union value *value, socklen_t size) {
    bool receives = option == SO_RCVTIMEO || option == SO_RECEIVE_TIME;
    bool is_time = receives || option == SO_SNDTIMEO || option == SO_SEND_TIME;
    if (size < (is_time ? sizeof value->time : option == SO_LINGER ? sizeof value->linger : sizeof value->number))
        return -EINVAL;
    if (is_time) return set_time(receives ? &options->receive_time : &options->send_time, &value->time);
    if (option != SO_LINGER) return set_number(options, option, value->number);
    options->linger.on = value->linger.l_onoff != 0;
    if (options->linger.on) options->linger.seconds = value->linger.l_linger;
    return 0;
}

/* ---- real sockets ---- */

atomic_bool has_timeouts;

/* Those that have no timeout are asked for none, as long as none has one. */
static int set_real(int fd, int level, int option, const void *value, socklen_t size) {
    if (level == SOL_SOCKET && (option == SO_RCVTIMEO || option == SO_RECEIVE_TIME || option == SO_SNDTIMEO ||
                                option == SO_SEND_TIME))
        atomic_store(&has_timeouts, true);
    return next_setsockopt()(fd, level, option, value, size);
}

int64_t timeout_of_real(int fd, int option, int flags) {
    struct timeval time = {0, 0};
    socklen_t size = sizeof time;
    int saved = errno;
    bool waits = !(flags & MSG_DONTWAIT) && next_getsockopt()(fd, SOL_SOCKET, option, &time, &size) == 0 &&
                 !(next_fcntl()(fd, F_GETFL) & O_NONBLOCK);
    errno = saved;
    return waits ? units_of(&(struct timespec){time.tv_sec, time.tv_usec * 1000}) : 0;
}

int setsockopt(int fd, int level, int option, const void *value, socklen_t size) {
    struct description *description;
    union value given;
    int status;
    if (!is_simulated(fd)) return set_real(fd, level, option, value, size);
    QUIET;
    memset(&given, 0, sizeof given);
    if ((int)size > 0 && !can_read(value, size < sizeof given ? size : sizeof given))
        return (int)ANSWER(-EFAULT, "setsockopt(%d, %d, %d, %p)", fd, level, option, value);
    if ((int)size > 0) memcpy(&given, value, size < sizeof given ? size : sizeof given);
    description = hold_socket(fd, &status);
    if (description) {
        lock_table();
        status = level == SOL_SOCKET ? set(&description->options, option, &given, size) : -EOPNOTSUPP;
        unlock_table();
        let_go(description);
    }
    if (status == -REFUSED)
        return refuse(ENOPROTOOPT, "setsockopt(%d, SOL_SOCKET, %d, %d) is not simulated", fd, option, given.number);
    return (int)ANSWER(status, "setsockopt(%d, %d, %d, %d)", fd, level, option, given.number);
}
