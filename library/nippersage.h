/* Nippersage: a simulated Linux kernel for pipes, socket pairs, eventfds, timers and epoll, in the process that
 * uses it.
 *
 *     struct nippersage_kernel *kernel;
 *     nippersage_open(NULL, &kernel);                                    // limits as by default
 *     struct nippersage_task task = {kernel, 1, 1};                      // caller 1, in process 1
 *     int ends[2], ep = nippersage_epoll_create1(task, 0);
 *     struct epoll_event event = {.events = EPOLLIN, .data.u64 = 7};
 *     nippersage_pipe2(task, ends, 0);
 *     nippersage_epoll_ctl(task, ep, EPOLL_CTL_ADD, ends[0], &event);
 *     nippersage_write(task, ends[1], "abc", 3);                         // 3
 *     nippersage_epoll_wait(task, ep, &event, 1, -1);                    // 1, and event is {EPOLLIN, 7}
 *     nippersage_free(kernel);
 *
 * There is a function for each system call, with Linux's own types, flags and constants. It answers what the call
 * does, 0 or more, or MINUS THE ERROR NUMBER; errno stays. Each file behaves as with O_NONBLOCK, whether the flag
 * is given or not. No real descriptor is touched.
 *
 * WHO CALLS is a task: a caller, which is a number of your choice, one for each thread that you act out, and the
 * number of its process. A kernel begins with process 1, whose descriptors 0, 1 and 2 name one file that can't be
 * polled. nippersage_fork makes further ones. Threads may use one kernel at a time as they like; each needs a
 * caller of its own.
 *
 * TIME stands still until a call moves it. A wait by nippersage_epoll_wait moves it by itself: see there. The
 * kernel's unit is the microsecond: a time that is finer is rounded up, and one that a function gives is a whole number
 * of them. The clock goes up to 1,000,000,000 seconds. A struct timespec is a time if its seconds are 0 or more and
 * its nanoseconds are 0 to 999,999,999; else it is -EINVAL, as the manual pages have it.
 *
 * WHAT IS PROVED. If nippersage_version() says `proved`, the answers are made by a kernel whose every answer a
 * machine-checked proof shows to be one that an abstract machine allows, and the functions that this library calls of
 * it are proved, too. This header and the C behind it are NOT: that a function here asks for the event that its name
 * says, the lock, the waits that move the clock by themselves. They are tested.
 *
 * Errors of every function that takes a task, beside its system call's: -ESRCH where the process isn't there,
 * -EBUSY while the caller is parked, -EINVAL where the kernel is NULL, -EFAULT for a NULL where something has to
 * be, -ENOMEM for want of memory, which changes nothing. An error changes nothing but the history, with two exceptions
 * at a TCP socket: -EINPROGRESS of a connect, and an error that waited there, which is taken by the call that answers
 * it. */
#ifndef NIPPERSAGE_H
#define NIPPERSAGE_H

#include <stddef.h>
#include <stdint.h>
#include <sys/epoll.h>
#include <sys/timerfd.h>
#include <sys/types.h>
#include <sys/uio.h>
#include <time.h>

#ifdef __cplusplus
extern "C" {
#endif

/* How much of each thing a kernel allows. */
struct nippersage_limits {
    uint32_t descriptors; /* numbers of a process, 3 to 65,536; by default 1,024 */
    uint32_t files;       /* open file descriptions, 1 to 1,000,000; 4,096 */
    uint32_t processes;   /* 1 to 10,000; 64 */
    uint32_t watches;     /* registrations, 0 to 1,000,000; 4,096 */
    uint32_t pipe_bytes;  /* in a pipe, 4,096 to 1,048,576; 65,536 */
    uint32_t sock_bytes;  /* in one direction of a socket pair, 1 to 1,048,576; 65,536 */
};

/* The version of the library, and how it was made: "0.2.0, proved in logic .." where the kernel behind it was proved,
 * "0.2.0, unproved" where nobody looked whether it can be. */
const char *nippersage_version(void);

struct nippersage_kernel;

struct nippersage_task {
    struct nippersage_kernel *kernel;
    uint32_t caller;
    uint64_t pid;
};

/* A parked caller, and its wait. */
struct nippersage_waiter {
    uint32_t caller;
    uint64_t pid;
    int epfd;
    int maxevents;           /* as the kernel took it: `watches` at most */
    int has_timeout;         /* 0 where the wait has no end; then `timeout` is 0 */
    struct timespec timeout; /* as the wait asked for, rounded up to a microsecond */
};

/* A registration of an instance. */
struct nippersage_watch {
    int fd;               /* the number under which it was added; later it may name something else, or nothing */
    uint32_t events;      /* that it asks for, and its modes */
    uint64_t data;        /* that its reports give back */
    uint32_t shown;       /* the bits that hold at its file now, whether it asks for them or not */
    int is_armed;         /* 0 for a one-shot, from its report to the next EPOLL_CTL_MOD */
    int is_reportable;    /* 1 if a wait would report it now */
    uint64_t reported_in; /* the event of its last report, by its place in the history from 1 on; 0 if never reported */
    uint32_t reported_to; /* the caller that got that report; 0 too if a stream has taken its record */
};

/* What a wait by hand answers while its caller is parked. It is no error number. */
#define NIPPERSAGE_PARKED (-4096)

/* A new kernel. NULL limits are those by default. -EINVAL where a limit is out of its range, -ENOMEM; then *kernel
 * stays. */
int nippersage_open(const struct nippersage_limits *limits, struct nippersage_kernel **kernel);

/* The first of the limits that is out of its range, by its name in the struct, as "descriptors". NULL if none is, or for
 * NULL limits, which are those by default. It says what -EINVAL of nippersage_open is about. */
const char *nippersage_bad_limit(const struct nippersage_limits *limits);

/* Ends a kernel, while no call on it runs. NULL is let be. */
void nippersage_free(struct nippersage_kernel *kernel);

/* pipe2(2). Flags: O_CLOEXEC, O_NONBLOCK. -EMFILE, -ENFILE. */
int nippersage_pipe2(struct nippersage_task task, int ends[2], int flags);

/* socketpair(2). AF_UNIX (else -EAFNOSUPPORT) and SOCK_STREAM (else -ESOCKTNOSUPPORT) with SOCK_CLOEXEC and
 * SOCK_NONBLOCK, protocol 0 (else -EPROTONOSUPPORT). -EMFILE, -ENFILE. */
int nippersage_socketpair(struct nippersage_task task, int domain, int type, int protocol, int ends[2]);

/* socket(2): the descriptor of a new socket, which has no connection and no name. AF_INET and AF_INET6 make one of TCP,
 * and both the same, AF_UNIX makes a Unix one (else -EAFNOSUPPORT). SOCK_STREAM (else -ESOCKTNOSUPPORT) with
 * SOCK_CLOEXEC and SOCK_NONBLOCK, protocol 0, or IPPROTO_TCP for the first two (else -EPROTONOSUPPORT). -EMFILE,
 * -ENFILE. */
int nippersage_socket(struct nippersage_task task, int domain, int type, int protocol);

/* eventfd(2). Flags: EFD_CLOEXEC, EFD_NONBLOCK, EFD_SEMAPHORE. -EMFILE, -ENFILE. */
int nippersage_eventfd(struct nippersage_task task, unsigned int initval, int flags);

/* timerfd_create(2). CLOCK_REALTIME and CLOCK_MONOTONIC are both the one simulated clock. Flags: TFD_CLOEXEC,
 * TFD_NONBLOCK. -EMFILE, -ENFILE. */
int nippersage_timerfd_create(struct nippersage_task task, int clockid, int flags);

/* timerfd_settime(2). Flags: TFD_TIMER_ABSTIME. `before`, if it isn't NULL, is told the setting before.
 * -EINVAL for a time that is none or above 1,000,000,000 seconds. */
int nippersage_timerfd_settime(struct nippersage_task task, int fd, int flags, const struct itimerspec *value,
                               struct itimerspec *before);

/* timerfd_gettime(2). */
int nippersage_timerfd_gettime(struct nippersage_task task, int fd, struct itimerspec *now);

/* A file that can't be polled, as /dev/null. Flags: O_CLOEXEC. Its descriptor. -EMFILE, -ENFILE. */
int nippersage_plain(struct nippersage_task task, int flags);

/* epoll_create1(2). Flags: EPOLL_CLOEXEC. -EMFILE, -ENFILE. */
int nippersage_epoll_create1(struct nippersage_task task, int flags);

/* epoll_ctl(2). EPOLLEXCLUSIVE may stand in an ADD of what is no instance, beside EPOLLIN, EPOLLOUT, EPOLLERR, EPOLLHUP,
 * EPOLLWAKEUP and EPOLLET; else it is -EINVAL. So is a MOD of a registration that was added with it. */
int nippersage_epoll_ctl(struct nippersage_task task, int epfd, int op, int fd, const struct epoll_event *event);

/* epoll_wait(2), by itself. The timeout is in milliseconds; a wait with one below 0 has no end. Where nothing is
 * reportable and the timeout isn't 0, the call parks its caller and comes back when its wait has ended. Meanwhile other
 * threads may use the kernel. As soon as each thread that is inside a call of this kernel is in such a wait, and none
 * of them is about to end, the clock goes on by itself to the next moment at which something happens. So a wait for an
 * hour comes back at once if no other thread does anything. A thread that is between two calls counts only by
 * nippersage_tasks. maxevents above `watches` is taken as that.
 *
 * -EDEADLK where there is no such moment: then every such wait answers it, and nippersage_deadlock tells who waited at
 * what. Its caller is not parked any more, so it may call again. A wait ends by an event of the kernel only, so the
 * library makes one: it registers an eventfd that is ready at the instance, takes its report, and closes it. These
 * events are in the history, as those of the highest caller that isn't parked, 4,294,967,295. Whoever waits there by
 * hand is parked anew behind all others. A caller stays parked if its instance is ready, which only EPOLLEXCLUSIVE
 * brings about, if the number that its wait named names that instance no more, or if a limit leaves no room for the
 * eventfd. It then ends its wait by nippersage_resume, as after -ENOMEM. */
int nippersage_epoll_wait(struct nippersage_task task, int epfd, struct epoll_event *events, int maxevents,
                          int timeout);

/* epoll_pwait2(2) without a mask of signals: as nippersage_epoll_wait, with NULL for a wait without end. */
int nippersage_epoll_pwait2(struct nippersage_task task, int epfd, struct epoll_event *events, int maxevents,
                            const struct timespec *timeout);

/* So many threads more take part, or fewer, if it is negative; at the beginning 0 do. The clock goes on by itself,
 * and -EDEADLK is answered, only while at least so many sleep in waits. So a program of eight threads says 8 before
 * they start, and each says -1 when it ends. -EINVAL for fewer than 0. */
int nippersage_tasks(struct nippersage_kernel *kernel, int more);

/* A wait by hand: as nippersage_epoll_wait, but answers NIPPERSAGE_PARKED in place of sleeping. The caller then
 * asks by nippersage_resume, best when nippersage_is_marked says that there may be something. */
int nippersage_wait_start(struct nippersage_task task, int epfd, struct epoll_event *events, int maxevents,
                          int timeout);

/* The same with the timeout of nippersage_epoll_pwait2. It may be finer than a millisecond, and longer than the 24 days
 * that an int of milliseconds holds. */
int nippersage_pwait2_start(struct nippersage_task task, int epfd, struct epoll_event *events, int maxevents,
                            const struct timespec *timeout);

/* Whether a parked caller's wait has ended: its reports, 0 where its time has passed, or NIPPERSAGE_PARKED.
 * -EINVAL where the caller isn't parked, -EMSGSIZE where maxevents is less than that of its wait. */
int nippersage_resume(struct nippersage_task task, struct epoll_event *events, int maxevents);

/* Moves the clock on by this time. -EINVAL for one that is none, and past 1,000,000,000 seconds. */
int nippersage_tick(struct nippersage_task task, const struct timespec *time);

/* The simulated clock: the time since it began. */
int nippersage_now(struct nippersage_kernel *kernel, struct timespec *moment);

/* 1 and the first moment of the clock to which a tick has an effect, or 0 where no tick has one; then *moment stays. */
int nippersage_next_moment(struct nippersage_kernel *kernel, struct timespec *moment);

/* 1 and of the marked callers the one that was parked first, or 0 where nobody is marked. */
int nippersage_first_marked(struct nippersage_kernel *kernel, uint32_t *caller);

/* Whether a caller is parked; whether it is parked and marked: 1 or 0. */
int nippersage_is_parked(struct nippersage_kernel *kernel, uint32_t caller);
int nippersage_is_marked(struct nippersage_kernel *kernel, uint32_t caller);

/* Tells the parked callers and their waits, the one that was parked first at the beginning, as many as have room. How
 * many are parked, which may be more. A caller counts until its wait was resumed. -EINVAL for room below 0. */
int nippersage_waiters(struct nippersage_kernel *kernel, struct nippersage_waiter *waiters, int room);

/* The same of those that were parked when -EDEADLK was last answered, or 0 if it never was. */
int nippersage_deadlock(struct nippersage_kernel *kernel, struct nippersage_waiter *waiters, int room);

/* Tells the registrations of an instance in the order in which they were added, as many as have room. How many there
 * are, which may be more. It is no call: the history stays, and a parked caller may be the one who asks. Each registration
 * of the instance is visited. -EBADF where the number names nothing, or the process isn't there, -EINVAL where it names
 * no instance, and for room below 0, -ENOMEM. */
int nippersage_watches(struct nippersage_task task, int epfd, struct nippersage_watch *watches, int room);

/* The same of the instance at which a caller is parked, whether a descriptor still names it or not. -EINVAL where the
 * caller isn't parked. */
int nippersage_watches_awaited(struct nippersage_kernel *kernel, uint32_t caller, struct nippersage_watch *watches,
                               int room);

/* read(2), write(2), readv(2), writev(2). At most 0x7ffff000 bytes go in one call, as on Linux. -EAGAIN, -EPIPE; no
 * signal. At a socket without a connection a read of a byte or more is -ENOTCONN (TCP) or -EINVAL (Unix), and a write
 * -EPIPE (TCP) or -ENOTCONN (Unix). If its connect failed, the error that waits there comes first. After that a read
 * gives no bytes, and a write is -EPIPE. */
ssize_t nippersage_read(struct nippersage_task task, int fd, void *bytes, size_t count);
ssize_t nippersage_write(struct nippersage_task task, int fd, const void *bytes, size_t count);
ssize_t nippersage_readv(struct nippersage_task task, int fd, const struct iovec *vectors, int count);
ssize_t nippersage_writev(struct nippersage_task task, int fd, const struct iovec *vectors, int count);

/* shutdown(2) of the reading, SHUT_RD, the writing, SHUT_WR, or both, SHUT_RDWR. -ENOTSOCK, -ENOTCONN if there is no
 * connection. */
int nippersage_shutdown(struct nippersage_task task, int fd, int how);

/* recv(2) with MSG_PEEK: what a read of a socket would give, which stays there. -ENOTSOCK, and the errors of a read. */
ssize_t nippersage_peek(struct nippersage_task task, int fd, void *bytes, size_t count);

/* getsockopt(2) with SO_ERROR: the number of the error that waits at a socket, which is taken by this. 0 if none waits:
 * at an end of a socket pair none ever does. A connect that failed leaves ECONNREFUSED. -ENOTSOCK. */
int nippersage_take_error(struct nippersage_task task, int fd);

/* Where a name is one: a port of IPv4 or of IPv6, or a number that stands for a name of a Unix socket. */
enum nippersage_space { NIPPERSAGE_V4, NIPPERSAGE_V6, NIPPERSAGE_LOCAL };

struct nippersage_name {
    int space; /* of enum nippersage_space */
    uint32_t number;
};

/* getsockname(2), getpeername(2): 1 and the name of the socket, or of the one at the other end. 0 if that has none, as
 * both ends of a socket pair; then *name stays. -ENOTSOCK. The second is -ENOTCONN if there is no connection. */
int nippersage_getsockname(struct nippersage_task task, int fd, struct nippersage_name *name);
int nippersage_getpeername(struct nippersage_task task, int fd, struct nippersage_name *name);

/* bind(2): gives a socket its name, which it keeps until it dies. Number 0 asks for any: that is the lowest from 32,768
 * to 60,999 that no socket has in this space, and nippersage_getsockname tells it. A TCP socket has names in V4 and V6,
 * else it is -EAFNOSUPPORT, and a Unix one in LOCAL, else it is -EINVAL. -ENOTSOCK. -EINVAL if the socket has a name or
 * a connection, or if its connect failed. -EADDRINUSE if the name is taken, or number 0 finds none free. A space that
 * isn't one of these, or a number above 65,535 in V4 or V6, is no name: that is -EINVAL before the kernel is asked, and
 * no event. */
int nippersage_bind(struct nippersage_task task, int fd, struct nippersage_name name);

/* listen(2): from now on a socket listens at its name, and shows no bit. A TCP socket without a name gets the lowest
 * number of V4 that is free, as by a bind of number 0. `backlog` + 1 connections may wait there. A backlog above 4,096
 * or below 0 is 4,096. If the socket listens already, only that changes. -EBADF, -ENOTSOCK. -EINVAL for an end of a
 * socket pair, for a Unix socket without a name, and for a TCP socket whose connect failed, until the next connect has
 * told so. -EADDRINUSE if a TCP socket has no name and none is free. An error leaves the socket as it was. */
int nippersage_listen(struct nippersage_task task, int fd, int backlog);

/* accept4(2): the descriptor of the connection that waits longest at a listener. No connect gets through yet, so none
 * waits, and it is -EAGAIN. Flags: SOCK_CLOEXEC, SOCK_NONBLOCK; any other is -EINVAL before the kernel is asked, and no
 * event. Before -EAGAIN come, in this order: -EBADF, -EMFILE, which is told of any file, -ENOTSOCK, -ENFILE, -EINVAL if
 * the socket doesn't listen. An error leaves all as it was. */
int nippersage_accept4(struct nippersage_task task, int fd, int flags);

/* connect(2): 0 if it is done, -EINPROGRESS if it connects. No connect gets through yet: if a socket listens at the
 * name, it is -EINVAL, where Linux connects. -ENOTSOCK. What is no name is -EINVAL, as for nippersage_bind.
 *
 * That of a Unix socket changes nothing. It is -EINVAL for a name in V4 or V6, -ECONNREFUSED if nobody listens at the
 * name, and else -EINVAL, or -EISCONN for an end of a socket pair.
 *
 * That of a TCP socket is -EINPROGRESS, and it has failed when the call returns. Then the socket shows EPOLLIN,
 * EPOLLOUT, EPOLLERR, EPOLLHUP and EPOLLRDHUP, and ECONNREFUSED waits there. It is taken by nippersage_take_error, or
 * by a read, peek or write of a byte or more. The next connect of any name tells that this one failed: it is
 * -ECONNREFUSED, or -ECONNABORTED if the error was taken. The one after that connects anew. Else it is -EAFNOSUPPORT
 * for a name in LOCAL, -EADDRNOTAVAIL if the socket has no name and none is free, and -EINVAL if a socket listens at
 * the name. These three change nothing. One that connects gives it a name, as a bind of number 0 does. That of a
 * listener of TCP is -EISCONN, whatever the name. */
int nippersage_connect(struct nippersage_task task, int fd, struct nippersage_name name);

/* dup(2), dup2(2), dup3(2). O_CLOEXEC in dup3 is -EOPNOTSUPP, which the kernel hasn't. */
int nippersage_dup(struct nippersage_task task, int fd);
int nippersage_dup2(struct nippersage_task task, int fd, int to);
int nippersage_dup3(struct nippersage_task task, int fd, int to, int flags);

/* close(2). */
int nippersage_close(struct nippersage_task task, int fd);

/* fork(2): the number of a new process with a copy of the descriptors. -EAGAIN where there are `processes`. */
int64_t nippersage_fork(struct nippersage_task task);

/* execve(2), as far as it closes descriptors with close-on-exec; _exit(2). -EBUSY while a caller of the process is
 * parked. */
int nippersage_execve(struct nippersage_task task);
int nippersage_exit(struct nippersage_task task);

/* Makes room for so many events more in the history, so that none asks for memory for its record. -ENOMEM. */
int nippersage_reserve(struct nippersage_kernel *kernel, size_t events);

/* How many records are there: one for each event since the last write of a stream. */
int nippersage_records(struct nippersage_kernel *kernel, size_t *count);

/* How many events there were, each of which has a record or had one before a stream took it. */
int nippersage_events(struct nippersage_kernel *kernel, uint64_t *count);

/* Writes the records that are there to a real descriptor, a record a line, as the program epaudit reads it. Minus the
 * error of write(2), and what stood before it has been written. Nothing else runs on the kernel meanwhile. */
int nippersage_history(struct nippersage_kernel *kernel, int fd);

/* In place of a descriptor: the records go nowhere. It is no error number. */
#define NIPPERSAGE_FORGET (-4097)

/* Lets the history go to a real descriptor as it comes: those records that are there, and from now on some thousands at
 * a time, each time whole lines. Fewer go at a time if they have many bytes with them. What was written is forgotten, so
 * a run of any length takes a few megabytes. A process that ends without the next call leaves a history that is whole up
 * to the last write.
 * With NIPPERSAGE_FORGET records are forgotten as they come, and nothing is written: for a run that nobody will judge.
 * With another descriptor, or with -1 for none, what is left goes to the one before, and so it does in nippersage_free.
 * 0, or the error that ended the stream before: minus that of write(2), or -ENOMEM. No call but this one answers it. The
 * records since the last write that was done whole stay then, and all later ones; the first of them may stand in the
 * file already, so what is written again belongs into another one. */
int nippersage_stream(struct nippersage_kernel *kernel, int fd);

/* Makes every event of the history again and compares: 0, or -ENOMEM, or -EINVAL once a stream has taken records, which
 * are not there any more: epaudit judges what was written. -EBADMSG would say that the reference model doesn't allow the
 * history. It can't come of a library that is proved (nippersage_version). */
int nippersage_check(struct nippersage_kernel *kernel);

/* ---- threads that take turns ---- */

/* Makes a run of threads the same each time: from now on, while nippersage_tasks says that threads take part, one of
 * them goes on from one call to the next, and the others stand at their calls. Who goes is chosen by the seed, once so
 * many stand as take part. So the same seed gives the same history, if what threads do depends on nothing but the
 * kernel's answers and what they share. A thread that takes part and waits for something that is not the kernel's stops
 * all. A caller is one thread's: another's call as it meanwhile answers -EBUSY.
 * -EBUSY if threads take part already, or it was called before. -ENOMEM. */
int nippersage_take_turns(struct nippersage_kernel *kernel, uint64_t seed);

/* A turn that is no call: others may go before what follows it. It stands before what a task does to something that it
 * shares with others, beside the kernel. `what` is its name, for the message. Where no turns are taken it does nothing.
 * 0, or -ECANCELED as any call once the order is over. */
int nippersage_shared(struct nippersage_task task, const char *what);

/* ---- every order (docs/orders.md) ---- */

/* A task of a program. The first is caller 1, the second caller 2, all in process 1. It has one of two functions:
 *
 * `turn` makes one call each time it is called, and answers 1 to be called again, 0 at its end, or minus an error number
 * if it failed. A wait by nippersage_epoll_wait that sleeps answers NIPPERSAGE_PARKED. Then the turn is over, and the
 * task answers 1, or hands that answer on. Once the wait may end, the task is called again and makes the same call
 * again, which ends it.
 *
 * `run` runs in a thread of its own, one thread at a time, and makes any number of calls. Its waits sleep. It answers 0
 * at its end, or minus an error number if it failed. Once the order is over its calls answer -ECANCELED, and it returns.
 *
 * If one task of a program has `run`, all run in threads. */
struct nippersage_program_task {
    const char *name; /* letters, digits and . _ -, with a letter or _ in front */
    int (*turn)(struct nippersage_task task, void *shared);
    int (*run)(struct nippersage_task task, void *shared);
    int is_daemon; /* it may be asleep at the end */
};

/* What is explored: `setup` is called for each order, makes what the tasks need, and sets `shared` to its beginning. It
 * answers 0, or minus an error number. Then each task makes its calls. `check`, if there is one, is called at the end,
 * and tells what is wrong, or NULL. */
struct nippersage_program {
    int (*setup)(struct nippersage_kernel *kernel, void *shared);
    const struct nippersage_program_task *tasks;
    size_t count; /* 1 to 63 */
    const char *(*check)(struct nippersage_kernel *kernel, void *shared);
};

/* Which orders are tried. */
enum nippersage_how {
    NIPPERSAGE_BY_DEFAULT, /* rising bounds for half of the limits, then orders by chance */
    NIPPERSAGE_RISING,     /* every order: those of no pre-emption, then those of one, and so on */
    NIPPERSAGE_BOUND,      /* every order of at most `bound` pre-emptions */
    NIPPERSAGE_EVERY,      /* every order, depth first */
    NIPPERSAGE_RANDOM,     /* by chance: the n-th depends on the seed and n only */
    NIPPERSAGE_PCT         /* priorities by chance, which change at `depth` - 1 turns */
};

/* All 0 is what is meant if nothing is said. */
struct nippersage_options {
    enum nippersage_how how;
    int bound, depth; /* depth 0 is 3 */
    uint64_t seed;
    double seconds; /* limits; if there is none, 4 seconds by default, and 1,000 orders by chance */
    uint64_t runs;
    int clock_any;  /* the clock moves at any point, not only if nobody can go on */
    int not_beside; /* nobody fails who sleeps beside data; or it is asked which registrations count */
    int (*beside)(const struct nippersage_watch *watch, void *shared);
    uint32_t most; /* turns of an order; 0 is 2,000 */
    const struct nippersage_limits *limits;
    const char *order;  /* a schedule to run alone; NULL asks the variable NIPPERSAGE_ORDER */
    const char *name;   /* tells this exploration from others there */
    const char *replay; /* what the message writes behind that variable; NULL is the program's name */
    int goes_on;        /* behind a failure */
    double patience;    /* seconds that a thread may make no call; 0 is 60 */
    /* Starts and joins the thread of a task, in place of pthreads: run(argument) in it. 0 or minus an error number. */
    int (*start)(void *given, int number, const char *name, void *(*run)(void *), void *argument);
    void (*join)(void *given, int number);
    void *given;
    int outcomes; /* are counted, for the result */
};

/* Why an order failed, or what is wrong with what was given. */
enum nippersage_kind {
    NIPPERSAGE_NO_FAILURE,
    NIPPERSAGE_BESIDE,   /* a task, daemon or not, sleeps beside data */
    NIPPERSAGE_FOR_GOOD, /* a task that is no daemon sleeps, and nothing can end it */
    NIPPERSAGE_ENDLESS,  /* more than `most` turns */
    NIPPERSAGE_FAILED,   /* a task failed */
    NIPPERSAGE_CHECK,    /* the check told something */
    NIPPERSAGE_BAD_PROGRAM,
    NIPPERSAGE_BAD_TASK,
    NIPPERSAGE_BAD_OPTION,
    NIPPERSAGE_BAD_SCHEDULE, /* it is none, or of another program */
    NIPPERSAGE_NOT_THE_SAME, /* a task didn't make the same call again */
    NIPPERSAGE_STUCK         /* a thread waits for something that is not the kernel's */
};

/* What one order came to or several: of each task the answers of its calls, in their order, and whether it came to its
 * end; and the kind of failure. A wait that parked has one answer, which is what ended it. Of bytes that were read the
 * first 24 count, and how many there were. */
struct nippersage_outcome {
    enum nippersage_kind kind; /* why these orders failed, or NIPPERSAGE_NO_FAILURE */
    uint64_t runs;             /* how many they are */
    char *order;               /* the schedule of the first of them */
};

struct nippersage_result {
    enum nippersage_kind kind;
    char *message; /* the failure, what is wrong, or what was tried; NULL for want of memory */
    char *order;   /* the schedule that failed, made small; NULL if none did */
    char *found;   /* before it was made small */
    int is_whole;  /* every order was tried */
    int bound;     /* every order of at most so many pre-emptions was tried, -1 if that isn't known */
    uint64_t runs, failures, turns;
    uint64_t cut; /* orders that were cut, as a task went on and on while another could have gone */
    uint64_t seed;
    double seconds;
    /* If they are counted: each once, in the order in which they were seen first. Their runs add up to `runs`. */
    struct nippersage_outcome *outcomes;
    size_t outcomes_count; /* 0, and `outcomes` is NULL, if they aren't, or if the answer is below 0 */
};

/* Tries orders of what tasks do, each from `setup` to its end, where nobody can go on, and makes the first small that
 * fails. 0 if none failed, 1 if one did. -EINVAL for what is wrong with the program, an option or a schedule, or if a
 * task doesn't make the same call again; -ETIMEDOUT if a thread is stuck: it is left alone, and so is its kernel.
 * -ENOMEM; where outcomes are counted also if a call of the program was, as such an order comes to none. In each case
 * result->message tells. A limit that was reached is told there, too. */
int nippersage_explore(const struct nippersage_program *program, void *shared, const struct nippersage_options *options,
                       struct nippersage_result *result);

/* Frees the texts and the outcomes of a result, which then has none. NULL is let be. */
void nippersage_result_free(struct nippersage_result *result);

/* Says why a task fails, for the message: `return nippersage_fail(task, "a short write");`. It answers an error number,
 * with which the task is to end. */
int nippersage_fail(struct nippersage_task task, const char *why);

#ifdef __cplusplus
}
#endif
#endif
