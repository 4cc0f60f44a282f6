/* nippersage.h over the functions of the crate ep_exports. A kernel has a lock, which each call takes once; a wait
 * that moves the clock by itself sleeps on the condition variable beside it. */
#include "orders/orders.h"
#include "turns.h"

#include <errno.h>
#include <fcntl.h>
#include <limits.h>
#include <netinet/in.h>
#include <stdlib.h>
#include <string.h>
#include <sys/eventfd.h>
#include <sys/socket.h>
#include <unistd.h>

/* Linux's MAX_RW_COUNT: no read or write moves more. */
#define MOST_BYTES ((size_t)0x7ffff000)
/* No read gives more: the largest capacity of a pipe or socket. */
#define MOST_READ ((size_t)1048576)
#define MOST_VECTORS 1024
#define MOST_PORT 65535

_Static_assert(NIPPERSAGE_PARKED == EP_PARKED, "a wait by hand hands the answer of the export on");
_Static_assert((int)SHUT_RD == (int)EP_SHUT_READ && (int)SHUT_WR == (int)EP_SHUT_WRITE &&
               (int)SHUT_RDWR == (int)EP_SHUT_BOTH, "a shutdown hands its word on");
_Static_assert((int)NIPPERSAGE_V4 == (int)EP_V4 && (int)NIPPERSAGE_V6 == (int)EP_V6 &&
               (int)NIPPERSAGE_LOCAL == (int)EP_LOCAL, "a name hands its space on");
_Static_assert(-EINPROGRESS == EP_CONNECTING, "a connect hands the answer of the export on");

void kernel_enter(struct nippersage_kernel *kernel) {
    atomic_fetch_add(&kernel->inside, 1);
    pthread_mutex_lock(&kernel->lock);
}

void kernel_leave(struct nippersage_kernel *kernel) {
    atomic_fetch_sub(&kernel->inside, 1);
    if (kernel->asleep > 0) pthread_cond_broadcast(&kernel->changed);
    pthread_mutex_unlock(&kernel->lock);
}

int kernel_has_reports(struct nippersage_kernel *kernel, size_t most) {
    struct ep_report *more;
    if (most <= kernel->reports_room) return 1;
    more = realloc(kernel->reports, most * sizeof *more);
    if (!more) return 0;
    kernel->reports = more;
    kernel->reports_room = most;
    return 1;
}

int64_t kernel_make(struct nippersage_task task, struct exchange *x) {
    static const uint8_t nothing;
    static struct ep_report no_reports;
    struct nippersage_kernel *kernel = task.kernel;
    uint8_t none;
    int64_t status;
    x->request.caller = task.caller;
    x->request.pid = task.pid;
    if (kernel->order && (status = order_may_call(kernel->order, task, x)) < 0) return status;
    status = ep_call(&kernel->handle, &x->request, x->given ? x->given : &nothing, x->given_length, &x->reply,
                     x->bytes ? x->bytes : &none, x->bytes_length, x->reports > 0 ? kernel->reports : &no_reports,
                     x->reports);
    if (status >= 0) status = x->reply.result;
    if (kernel->stream.is_on) history_goes_on(kernel, x, status);
    if (kernel->order) order_note(kernel->order, task, x, status);
    return status;
}

/* Takes the lock for a call, and where threads take turns only in the caller's. */
static int enter_in_turn(struct nippersage_task task) {
    struct turns *turns;
    int status = 0;
    kernel_enter(task.kernel);
    turns = task.kernel->turns;
    if (turns && turns->order && !turns->is_over) status = order_may_stand(turns->order, task, turns_is_mine(turns));
    if (status == 0 && turns && (turns->order || task.kernel->tasks > 0)) status = turns_stand(turns, task.caller, 0);
    if (status < 0) kernel_leave(task.kernel);
    return status;
}

int nippersage_shared(struct nippersage_task task, const char *what) {
    int status;
    if (!task.kernel) return -EINVAL;
    if (!what) return -EFAULT;
    status = enter_in_turn(task);
    if (status < 0) return status;
    if (task.kernel->order) status = order_share(task.kernel->order, task, what);
    kernel_leave(task.kernel);
    return status;
}

/* One event. */
static int64_t ask(struct nippersage_task task, struct exchange *x) {
    int64_t result;
    if (!task.kernel) return -EINVAL;
    result = enter_in_turn(task);
    if (result < 0) return result;
    result = kernel_make(task, x);
    kernel_leave(task.kernel);
    return result;
}

/* A call that comes to no event for want of memory. An order has to know of it, as it sees events only. */
static int no_memory(struct nippersage_task task) {
    if (task.kernel && task.kernel->order) order_starves(task.kernel->order);
    return -ENOMEM;
}

#define ASK(task, ...) ask(task, &(struct exchange){.request = {__VA_ARGS__}})

static uint32_t cloexec(int set) { return set ? EP_CLOEXEC : 0; }

/* ---- times ---- */

/* In microseconds, rounded up, or -1 where it is none. What is above the largest number is that. */
static int64_t microseconds(const struct timespec *time) {
    if (time->tv_sec < 0 || time->tv_nsec < 0 || time->tv_nsec >= 1000000000) return -1;
    if (time->tv_sec > INT64_MAX / 1000000 - 1) return INT64_MAX;
    return (int64_t)time->tv_sec * 1000000 + (time->tv_nsec + 999) / 1000;
}

/* The timeout of epoll_wait(2) in microseconds: it is in milliseconds, and has no end below 0. */
static int64_t of_milliseconds(int timeout) { return timeout < 0 ? -1 : (int64_t)timeout * 1000; }

/* So many microseconds. */
static struct timespec timespec_of(uint64_t time) {
    return (struct timespec){.tv_sec = (time_t)(time / 1000000), .tv_nsec = (long)(time % 1000000) * 1000};
}

static void put_setting(const struct ep_reply *reply, struct itimerspec *setting) {
    setting->it_value = timespec_of(reply->value);
    setting->it_interval = timespec_of(reply->interval);
}

/* ---- a kernel ---- */

static const struct nippersage_limits default_limits = {1024, 4096, 64, 4096, 65536, 65536};

static struct nippersage_kernel *new_kernel(uint32_t watches) {
    struct nippersage_kernel *kernel = calloc(1, sizeof *kernel);
    if (!kernel) return NULL;
    kernel->most_reports = watches > 0 ? (int)watches : 1;
    if (pthread_mutex_init(&kernel->lock, NULL) != 0) {
        free(kernel);
        return NULL;
    }
    if (pthread_cond_init(&kernel->changed, NULL) != 0) {
        pthread_mutex_destroy(&kernel->lock);
        free(kernel);
        return NULL;
    }
    return kernel;
}

/* What the library's builder says; who compiles this file by hand has proved nothing. */
#ifndef NIPPERSAGE_MADE
#define NIPPERSAGE_MADE "unproved"
#endif

const char *nippersage_version(void) { return NIPPERSAGE_MADE; }

int nippersage_open(const struct nippersage_limits *limits, struct nippersage_kernel **kernel) {
    struct nippersage_kernel *made;
    struct ep_limits flat;
    int32_t status;
    if (!kernel) return -EFAULT;
    if (!limits) limits = &default_limits;
    if (limits->watches > 1000000) return -EINVAL;
    made = new_kernel(limits->watches);
    if (!made) return -ENOMEM;
    flat = (struct ep_limits){limits->descriptors, limits->files, limits->processes, limits->watches, limits->pipe_bytes,
                              limits->sock_bytes};
    status = ep_open(&flat, &made->handle);
    if (status < 0) {
        nippersage_free(made);
        return status;
    }
    *kernel = made;
    return 0;
}

const char *nippersage_bad_limit(const struct nippersage_limits *limits) {
    if (!limits) return NULL;
    const struct {
        const char *name;
        uint32_t value, least, most;
    } all[] = {
        {"descriptors", limits->descriptors, 3, 65536},     {"files", limits->files, 1, 1000000},
        {"processes", limits->processes, 1, 10000},         {"watches", limits->watches, 0, 1000000},
        {"pipe_bytes", limits->pipe_bytes, 4096, 1048576},  {"sock_bytes", limits->sock_bytes, 1, 1048576},
    };
    for (size_t i = 0; i < sizeof all / sizeof *all; i++)
        if (all[i].value < all[i].least || all[i].value > all[i].most) return all[i].name;
    return NULL;
}

void nippersage_free(struct nippersage_kernel *kernel) {
    if (!kernel) return;
    nippersage_stream(kernel, -1);
    ep_close(&kernel->handle);
    pthread_cond_destroy(&kernel->changed);
    pthread_mutex_destroy(&kernel->lock);
    if (kernel->turns && !kernel->turns->order) {
        turns_free(kernel->turns);
        free(kernel->turns);
    }
    free(kernel->parked);
    free(kernel->dead);
    free(kernel->reports);
    free(kernel);
}

/* ---- files ---- */

static int ends_of(struct nippersage_task task, uint32_t event, uint32_t flags, int ends[2]) {
    struct exchange x = {.request = {.event = event, .flags = flags}};
    int64_t result;
    if (!ends) return -EFAULT;
    result = ask(task, &x);
    if (result == 0) {
        ends[0] = x.reply.first;
        ends[1] = x.reply.second;
    }
    return (int)result;
}

int nippersage_pipe2(struct nippersage_task task, int ends[2], int flags) {
    if (flags & ~(O_CLOEXEC | O_NONBLOCK)) return -EINVAL;
    return ends_of(task, EP_PIPE, cloexec(flags & O_CLOEXEC), ends);
}

int nippersage_socketpair(struct nippersage_task task, int domain, int type, int protocol, int ends[2]) {
    if (domain != AF_UNIX) return -EAFNOSUPPORT;
    if ((type & ~(SOCK_CLOEXEC | SOCK_NONBLOCK)) != SOCK_STREAM) return -ESOCKTNOSUPPORT;
    if (protocol != 0) return -EPROTONOSUPPORT;
    return ends_of(task, EP_SOCKETPAIR, cloexec(type & SOCK_CLOEXEC), ends);
}

int nippersage_socket(struct nippersage_task task, int domain, int type, int protocol) {
    int is_tcp = domain == AF_INET || domain == AF_INET6;
    if (!is_tcp && domain != AF_UNIX) return -EAFNOSUPPORT;
    if ((type & ~(SOCK_CLOEXEC | SOCK_NONBLOCK)) != SOCK_STREAM) return -ESOCKTNOSUPPORT;
    if (protocol != 0 && !(is_tcp && protocol == IPPROTO_TCP)) return -EPROTONOSUPPORT;
    return (int)ASK(task, .event = EP_SOCKET, .number = is_tcp ? EP_TCP : EP_UNIX,
                    .flags = cloexec(type & SOCK_CLOEXEC));
}

int nippersage_eventfd(struct nippersage_task task, unsigned int initval, int flags) {
    uint32_t bits = cloexec(flags & EFD_CLOEXEC) | (flags & EFD_SEMAPHORE ? EP_SEMAPHORE : 0);
    if (flags & ~(EFD_CLOEXEC | EFD_NONBLOCK | EFD_SEMAPHORE)) return -EINVAL;
    return (int)ASK(task, .event = EP_EVENTFD, .count = initval, .flags = bits);
}

int nippersage_timerfd_create(struct nippersage_task task, int clockid, int flags) {
    if (flags & ~(TFD_CLOEXEC | TFD_NONBLOCK)) return -EINVAL;
    return (int)ASK(task, .event = EP_TIMERFD, .number = clockid, .flags = cloexec(flags & TFD_CLOEXEC));
}

int nippersage_timerfd_settime(struct nippersage_task task, int fd, int flags, const struct itimerspec *value,
                               struct itimerspec *before) {
    uint32_t bits = flags & TFD_TIMER_ABSTIME ? EP_ABSOLUTE : 0;
    struct exchange x = {.request = {.event = EP_SETTIME, .fd = fd, .flags = bits}};
    int64_t first, interval, result;
    if (!value) return -EFAULT;
    first = microseconds(&value->it_value);
    interval = microseconds(&value->it_interval);
    if (flags & ~TFD_TIMER_ABSTIME || first < 0 || interval < 0) return -EINVAL;
    x.request.value = (uint64_t)first;
    x.request.interval = (uint64_t)interval;
    result = ask(task, &x);
    if (result == 0 && before) put_setting(&x.reply, before);
    return (int)result;
}

int nippersage_timerfd_gettime(struct nippersage_task task, int fd, struct itimerspec *now) {
    struct exchange x = {.request = {.event = EP_GETTIME, .fd = fd}};
    int64_t result;
    if (!now) return -EFAULT;
    result = ask(task, &x);
    if (result == 0) put_setting(&x.reply, now);
    return (int)result;
}

int nippersage_plain(struct nippersage_task task, int flags) {
    if (flags & ~O_CLOEXEC) return -EINVAL;
    return (int)ASK(task, .event = EP_PLAIN, .flags = cloexec(flags & O_CLOEXEC));
}

int nippersage_shutdown(struct nippersage_task task, int fd, int how) {
    if (how != SHUT_RD && how != SHUT_WR && how != SHUT_RDWR) return -EINVAL;
    return (int)ASK(task, .event = EP_SHUTDOWN, .fd = fd, .number = how);
}

int nippersage_take_error(struct nippersage_task task, int fd) {
    return (int)ASK(task, .event = EP_SOCKERR, .fd = fd);
}

static int name_of_socket(struct nippersage_task task, int fd, uint32_t flags, struct nippersage_name *name) {
    struct exchange x = {.request = {.event = EP_SOCKNAME, .fd = fd, .flags = flags}};
    int64_t result;
    if (!name) return -EFAULT;
    result = ask(task, &x);
    if (result == 1) *name = (struct nippersage_name){x.reply.first, (uint32_t)x.reply.value};
    return (int)result;
}

int nippersage_getsockname(struct nippersage_task task, int fd, struct nippersage_name *name) {
    return name_of_socket(task, fd, 0, name);
}

int nippersage_getpeername(struct nippersage_task task, int fd, struct nippersage_name *name) {
    return name_of_socket(task, fd, EP_PEER, name);
}

/* A call that is given a name. */
static int ask_with_name(struct nippersage_task task, uint32_t event, int fd, struct nippersage_name name) {
    int is_port = name.space == NIPPERSAGE_V4 || name.space == NIPPERSAGE_V6;
    if (is_port ? name.number > MOST_PORT : name.space != NIPPERSAGE_LOCAL) return -EINVAL;
    return (int)ASK(task, .event = event, .fd = fd, .number = name.space, .count = name.number);
}

int nippersage_bind(struct nippersage_task task, int fd, struct nippersage_name name) {
    return ask_with_name(task, EP_BIND, fd, name);
}

int nippersage_listen(struct nippersage_task task, int fd, int backlog) {
    return (int)ASK(task, .event = EP_LISTEN, .fd = fd, .number = backlog);
}

int nippersage_accept4(struct nippersage_task task, int fd, int flags) {
    if (flags & ~(SOCK_CLOEXEC | SOCK_NONBLOCK)) return -EINVAL;
    return (int)ASK(task, .event = EP_ACCEPT, .fd = fd, .flags = cloexec(flags & SOCK_CLOEXEC));
}

int nippersage_connect(struct nippersage_task task, int fd, struct nippersage_name name) {
    return ask_with_name(task, EP_CONNECT, fd, name);
}

int nippersage_dup(struct nippersage_task task, int fd) { return (int)ASK(task, .event = EP_DUP, .fd = fd); }

int nippersage_dup2(struct nippersage_task task, int fd, int to) {
    return (int)ASK(task, .event = EP_DUP2, .fd = fd, .target = to);
}

int nippersage_dup3(struct nippersage_task task, int fd, int to, int flags) {
    if (flags == O_CLOEXEC) return -EOPNOTSUPP;
    if (flags != 0 || fd == to) return -EINVAL;
    return nippersage_dup2(task, fd, to);
}

int nippersage_close(struct nippersage_task task, int fd) { return (int)ASK(task, .event = EP_CLOSE, .fd = fd); }

/* ---- bytes ---- */

/* A read, or a peek. */
static ssize_t bytes_at(struct nippersage_task task, uint32_t event, int fd, void *bytes, size_t count) {
    struct exchange x = {.request = {.event = event, .fd = fd}, .bytes = bytes};
    if (!bytes && count > 0) return -EFAULT;
    if (count > MOST_BYTES) count = MOST_BYTES;
    x.request.count = (uint32_t)count;
    x.bytes_length = count;
    return (ssize_t)ask(task, &x);
}

ssize_t nippersage_read(struct nippersage_task task, int fd, void *bytes, size_t count) {
    return bytes_at(task, EP_READ, fd, bytes, count);
}

ssize_t nippersage_peek(struct nippersage_task task, int fd, void *bytes, size_t count) {
    return bytes_at(task, EP_PEEK, fd, bytes, count);
}

ssize_t nippersage_write(struct nippersage_task task, int fd, const void *bytes, size_t count) {
    struct exchange x = {.request = {.event = EP_WRITE, .fd = fd}, .given = bytes, .given_length = count};
    if (!bytes && count > 0) return -EFAULT;
    if (count > MOST_BYTES) x.given_length = MOST_BYTES;
    return (ssize_t)ask(task, &x);
}

/* How many bytes vectors have, at most MOST_BYTES, or minus an error number. */
static ssize_t bytes_in(const struct iovec *vectors, int count) {
    size_t sum = 0;
    if (count < 0 || count > MOST_VECTORS) return -EINVAL;
    if (!vectors && count > 0) return -EFAULT;
    for (int i = 0; i < count; i++) {
        if (vectors[i].iov_len > (size_t)SSIZE_MAX - sum) return -EINVAL;
        if (!vectors[i].iov_base && vectors[i].iov_len > 0) return -EFAULT;
        sum += vectors[i].iov_len;
    }
    return (ssize_t)(sum < MOST_BYTES ? sum : MOST_BYTES);
}

ssize_t nippersage_readv(struct nippersage_task task, int fd, const struct iovec *vectors, int count) {
    ssize_t most = bytes_in(vectors, count), got, done = 0;
    unsigned char *bytes;
    if (most < 0) return most;
    if ((size_t)most > MOST_READ) most = MOST_READ;
    bytes = malloc(most > 0 ? (size_t)most : 1);
    if (!bytes) return no_memory(task);
    got = nippersage_read(task, fd, bytes, (size_t)most);
    for (int i = 0; done < got; i++) {
        size_t part = (size_t)(got - done) < vectors[i].iov_len ? (size_t)(got - done) : vectors[i].iov_len;
        if (part > 0) memcpy(vectors[i].iov_base, bytes + done, part);
        done += (ssize_t)part;
    }
    free(bytes);
    return got;
}

ssize_t nippersage_writev(struct nippersage_task task, int fd, const struct iovec *vectors, int count) {
    ssize_t most = bytes_in(vectors, count), taken;
    size_t done = 0;
    unsigned char *bytes;
    if (most < 0) return most;
    bytes = malloc(most > 0 ? (size_t)most : 1);
    if (!bytes) return no_memory(task);
    for (int i = 0; done < (size_t)most; i++) {
        size_t part = (size_t)most - done < vectors[i].iov_len ? (size_t)most - done : vectors[i].iov_len;
        if (part > 0) memcpy(bytes + done, vectors[i].iov_base, part);
        done += part;
    }
    taken = nippersage_write(task, fd, bytes, (size_t)most);
    free(bytes);
    return taken;
}

/* ---- processes ---- */

int64_t nippersage_fork(struct nippersage_task task) { return ASK(task, .event = EP_FORK); }

int nippersage_execve(struct nippersage_task task) { return (int)ASK(task, .event = EP_EXEC); }

int nippersage_exit(struct nippersage_task task) { return (int)ASK(task, .event = EP_EXIT); }

/* ---- epoll ---- */

int nippersage_epoll_create1(struct nippersage_task task, int flags) {
    if (flags & ~EPOLL_CLOEXEC) return -EINVAL;
    return (int)ASK(task, .event = EP_CREATE, .flags = cloexec(flags & EPOLL_CLOEXEC));
}

int nippersage_epoll_ctl(struct nippersage_task task, int epfd, int op, int fd, const struct epoll_event *event) {
    struct exchange x = {.request = {.event = EP_CTL, .fd = epfd, .number = op, .target = fd}};
    if (op != EPOLL_CTL_DEL) {
        if (!event) return -EFAULT;
        x.request.count = event->events;
        x.request.value = event->data.u64;
    }
    return (int)ask(task, &x);
}

static struct parked *parked_of(struct nippersage_kernel *kernel, uint32_t caller) {
    for (size_t i = 0; i < kernel->parked_count; i++)
        if (kernel->parked[i].caller == caller) return &kernel->parked[i];
    return NULL;
}

/* Whether one more caller can be noted as parked. */
static int has_room(struct nippersage_kernel *kernel) {
    size_t room = kernel->parked_room > 0 ? 2 * kernel->parked_room : 8;
    struct parked *more;
    if (kernel->parked_count < kernel->parked_room) return 1;
    more = realloc(kernel->parked, room * sizeof *more);
    if (!more) return 0;
    kernel->parked = more;
    kernel->parked_room = room;
    return 1;
}

static void put_events(const struct nippersage_kernel *kernel, int64_t count, struct epoll_event *events) {
    for (int64_t i = 0; i < count; i++) {
        events[i].events = kernel->reports[i].events;
        events[i].data.u64 = kernel->reports[i].tag;
    }
}

int64_t kernel_park(struct nippersage_task task, int epfd, int most, int64_t timeout) {
    struct nippersage_kernel *kernel = task.kernel;
    struct exchange x = {.request = {.event = EP_WAIT, .fd = epfd, .number = most, .timeout = timeout}};
    int64_t result;
    x.reports = most > 0 ? (size_t)most : 0;
    result = kernel_make(task, &x);
    if (result == EP_PARKED)
        kernel->parked[kernel->parked_count++] =
            (struct parked){.caller = task.caller, .pid = task.pid, .epfd = epfd, .most = most, .timeout = timeout};
    return result;
}

/* Begins a wait, under the lock. Its timeout is in microseconds, and has no end below 0. */
static int start(struct nippersage_task task, int epfd, struct epoll_event *events, int maxevents, int64_t timeout) {
    struct nippersage_kernel *kernel = task.kernel;
    int most = maxevents < kernel->most_reports ? maxevents : kernel->most_reports;
    int64_t result;
    if (!events && maxevents > 0) return -EFAULT;
    if (!has_room(kernel) || !kernel_has_reports(kernel, most > 0 ? (size_t)most : 0)) return no_memory(task);
    result = kernel_park(task, epfd, most, timeout);
    put_events(kernel, result, events);
    return (int)result;
}

void kernel_forget_parked(struct nippersage_kernel *kernel, struct parked *gone) {
    const struct parked *end = kernel->parked + kernel->parked_count--;
    memmove(gone, gone + 1, (size_t)(end - (gone + 1)) * sizeof *gone);
}

/* Asks whether a wait has ended, under the lock. */
static int resume(struct nippersage_task task, struct epoll_event *events, int maxevents) {
    struct nippersage_kernel *kernel = task.kernel;
    struct parked *parked = parked_of(kernel, task.caller);
    struct exchange x = {.request = {.event = EP_RESUME}};
    int64_t result;
    if (parked && maxevents < parked->most) return -EMSGSIZE;
    if (parked && !events) return -EFAULT;
    x.reports = parked ? (size_t)parked->most : 0;
    result = kernel_make(task, &x);
    if (parked && result >= 0) {
        put_events(kernel, result, events);
        kernel_forget_parked(kernel, parked);
    }
    return (int)result;
}

/* Begins a wait, whose timeout is in microseconds. */
static int start_by_hand(struct nippersage_task task, int epfd, struct epoll_event *events, int maxevents,
                         int64_t timeout) {
    int result;
    if (!task.kernel) return -EINVAL;
    result = enter_in_turn(task);
    if (result < 0) return result;
    result = start(task, epfd, events, maxevents, timeout);
    kernel_leave(task.kernel);
    return result;
}

int nippersage_wait_start(struct nippersage_task task, int epfd, struct epoll_event *events, int maxevents,
                          int timeout) {
    return start_by_hand(task, epfd, events, maxevents, of_milliseconds(timeout));
}

int nippersage_pwait2_start(struct nippersage_task task, int epfd, struct epoll_event *events, int maxevents,
                            const struct timespec *timeout) {
    int64_t most = timeout ? microseconds(timeout) : -1;
    if (timeout && most < 0) return -EINVAL;
    return start_by_hand(task, epfd, events, maxevents, most);
}

int nippersage_resume(struct nippersage_task task, struct epoll_event *events, int maxevents) {
    int result;
    if (!task.kernel) return -EINVAL;
    result = enter_in_turn(task);
    if (result < 0) return result;
    result = resume(task, events, maxevents);
    kernel_leave(task.kernel);
    return result;
}

/* ---- waits that move the clock ---- */

/* Whether nothing but the clock can end a wait of those that sleep: nobody else is inside a call, so many sleep as
 * take part, and none of them is about to wake. */
static int is_still(struct nippersage_kernel *kernel) {
    if (atomic_load(&kernel->inside) != kernel->asleep || kernel->asleep < (unsigned int)kernel->tasks) return 0;
    for (const struct sleeper *s = kernel->sleepers; s; s = s->next)
        if (s->status != 0 || ep_is_marked(&kernel->handle, s->caller) == 1) return 0;
    return 1;
}

int kernel_go_on(struct nippersage_task task, int64_t *result) {
    struct nippersage_kernel *kernel = task.kernel;
    struct exchange x = {.request = {.event = EP_TICK}};
    uint64_t moment = 0, now = 0;
    if (ep_next_moment(&kernel->handle, &moment) != 1) return 0;
    ep_now(&kernel->handle, &now);
    x.request.value = moment - now;
    *result = kernel_make(task, &x);
    return 1;
}

/* Moves the clock to the next moment; where there is none, each wait that sleeps ends with -EDEADLK. */
static int go_on(struct nippersage_task task) {
    struct nippersage_kernel *kernel = task.kernel;
    int64_t result = 0;
    if (!kernel_go_on(task, &result)) {
        kernel_end_waits(kernel);
        for (struct sleeper *s = kernel->sleepers; s; s = s->next) s->status = -EDEADLK;
    }
    pthread_cond_broadcast(&kernel->changed);
    return (int)result;
}

static void forget_sleeper(struct nippersage_kernel *kernel, const struct sleeper *gone) {
    struct sleeper **link = &kernel->sleepers;
    while (*link != gone) link = &(*link)->next;
    *link = gone->next;
}

/* Sleeps until the wait of this caller, which is parked, has ended. */
static int sleep_in_wait(struct nippersage_task task, struct epoll_event *events, int maxevents) {
    struct nippersage_kernel *kernel = task.kernel;
    struct sleeper self = {task.caller, 0, kernel->sleepers};
    int result = EP_PARKED;
    kernel->sleepers = &self;
    kernel->asleep++;
    while (result == EP_PARKED) {
        if (self.status != 0) {
            result = self.status;
        } else if (ep_is_marked(&kernel->handle, task.caller) == 1) {
            result = resume(task, events, maxevents);
        } else if (is_still(kernel)) {
            int moved = go_on(task);
            if (moved < 0) result = moved;
        } else {
            pthread_cond_wait(&kernel->changed, &kernel->lock);
        }
    }
    kernel->asleep--;
    forget_sleeper(kernel, &self);
    return result;
}

/* The same where threads take turns. */
static int stand_in_wait(struct nippersage_task task, struct epoll_event *events, int maxevents) {
    int result = EP_PARKED;
    while (result == EP_PARKED) {
        result = turns_stand(task.kernel->turns, task.caller, 1);
        if (result == 0) result = resume(task, events, maxevents);
    }
    return result;
}

/* Sleeps in a wait that parked its caller, where a thread sleeps: one that an order calls back comes back instead. */
static int sleep_or_stand(struct nippersage_task task, struct epoll_event *events, int maxevents) {
    struct nippersage_kernel *kernel = task.kernel;
    int stands = kernel->turns && (kernel->turns->order || kernel->tasks > 0), result;
    struct parked *parked;
    if (!stands && kernel->order && order_is_by_turn(kernel->order)) return EP_PARKED;
    parked_of(kernel, task.caller)->is_asleep = 1;
    result = stands ? stand_in_wait(task, events, maxevents) : sleep_in_wait(task, events, maxevents);
    parked = parked_of(kernel, task.caller);
    if (parked) parked->is_asleep = 0;
    return result;
}

static int wait_for(struct nippersage_task task, int epfd, struct epoll_event *events, int maxevents, int64_t timeout) {
    struct nippersage_kernel *kernel = task.kernel;
    int result;
    if (!kernel) return -EINVAL;
    result = enter_in_turn(task);
    if (result < 0) return result;
    if (kernel->order && order_is_asleep(kernel->order, task)) {
        result = resume(task, events, maxevents);
    } else {
        result = start(task, epfd, events, maxevents, timeout);
        if (result == EP_PARKED) result = sleep_or_stand(task, events, maxevents);
    }
    kernel_leave(kernel);
    return result;
}

int nippersage_epoll_wait(struct nippersage_task task, int epfd, struct epoll_event *events, int maxevents,
                          int timeout) {
    return wait_for(task, epfd, events, maxevents, of_milliseconds(timeout));
}

int nippersage_epoll_pwait2(struct nippersage_task task, int epfd, struct epoll_event *events, int maxevents,
                            const struct timespec *timeout) {
    int64_t most = timeout ? microseconds(timeout) : -1;
    if (timeout && most < 0) return -EINVAL;
    return wait_for(task, epfd, events, maxevents, most);
}

int nippersage_tasks(struct nippersage_kernel *kernel, int more) {
    int result = 0;
    if (!kernel) return -EINVAL;
    kernel_enter(kernel);
    if (more > INT_MAX - kernel->tasks || more < -kernel->tasks) {
        result = -EINVAL;
    } else {
        kernel->tasks += more;
        if (kernel->turns && !kernel->turns->order) turns_pass(kernel->turns);
    }
    kernel_leave(kernel);
    return result;
}

/* ---- the clock and questions ---- */

int nippersage_tick(struct nippersage_task task, const struct timespec *time) {
    int64_t more;
    if (!time) return -EFAULT;
    more = microseconds(time);
    if (more < 0) return -EINVAL;
    return (int)ASK(task, .event = EP_TICK, .value = (uint64_t)more);
}

int nippersage_now(struct nippersage_kernel *kernel, struct timespec *moment) {
    uint64_t now = 0;
    int result;
    if (!kernel) return -EINVAL;
    if (!moment) return -EFAULT;
    kernel_enter(kernel);
    result = ep_now(&kernel->handle, &now);
    kernel_leave(kernel);
    if (result == 0) *moment = timespec_of(now);
    return result;
}

int nippersage_next_moment(struct nippersage_kernel *kernel, struct timespec *moment) {
    uint64_t next = 0;
    int result;
    if (!kernel) return -EINVAL;
    if (!moment) return -EFAULT;
    kernel_enter(kernel);
    result = ep_next_moment(&kernel->handle, &next);
    kernel_leave(kernel);
    if (result == 1) *moment = timespec_of(next);
    return result;
}

int nippersage_first_marked(struct nippersage_kernel *kernel, uint32_t *caller) {
    int result;
    if (!kernel) return -EINVAL;
    if (!caller) return -EFAULT;
    kernel_enter(kernel);
    result = ep_first_marked(&kernel->handle, caller);
    kernel_leave(kernel);
    return result;
}

int nippersage_is_parked(struct nippersage_kernel *kernel, uint32_t caller) {
    int result;
    if (!kernel) return -EINVAL;
    kernel_enter(kernel);
    result = ep_is_parked(&kernel->handle, caller);
    kernel_leave(kernel);
    return result;
}

int nippersage_is_marked(struct nippersage_kernel *kernel, uint32_t caller) {
    int result;
    if (!kernel) return -EINVAL;
    kernel_enter(kernel);
    result = ep_is_marked(&kernel->handle, caller);
    kernel_leave(kernel);
    return result;
}

static struct nippersage_waiter waiter_of(const struct parked *parked) {
    return (struct nippersage_waiter){
        .caller = parked->caller,
        .pid = parked->pid,
        .epfd = parked->epfd,
        .maxevents = parked->most,
        .has_timeout = parked->timeout >= 0,
        .timeout = timespec_of(parked->timeout >= 0 ? (uint64_t)parked->timeout : 0),
    };
}

/* Tells the first of these callers, and how many they are. */
static int tell_waiters(const struct parked *parked, size_t count, struct nippersage_waiter *waiters, int room) {
    for (size_t i = 0; i < count && i < (size_t)room; i++) waiters[i] = waiter_of(&parked[i]);
    return (int)count;
}

int nippersage_waiters(struct nippersage_kernel *kernel, struct nippersage_waiter *waiters, int room) {
    int count;
    if (!kernel || room < 0) return -EINVAL;
    if (!waiters && room > 0) return -EFAULT;
    kernel_enter(kernel);
    count = tell_waiters(kernel->parked, kernel->parked_count, waiters, room);
    kernel_leave(kernel);
    return count;
}

int nippersage_deadlock(struct nippersage_kernel *kernel, struct nippersage_waiter *waiters, int room) {
    int count;
    if (!kernel || room < 0) return -EINVAL;
    if (!waiters && room > 0) return -EFAULT;
    kernel_enter(kernel);
    count = tell_waiters(kernel->dead, kernel->dead_count, waiters, room);
    kernel_leave(kernel);
    return count;
}
