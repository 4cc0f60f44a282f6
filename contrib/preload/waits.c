/* Waits: epoll, poll and select, and the waits of calls that block. Each is a wait of the library, which moves the
   clock. */
#include "preload.h"

#include <poll.h>
#include <stdio.h>
#include <stdlib.h>
#include <sys/select.h>

FORWARD(poll)
FORWARD(ppoll)
FORWARD(select)
FORWARD(pselect)

/* How long a call waits at most, and how the log has it. */
struct timeout {
    int64_t units; /* without end below 0, or where it is no time */
    struct text said;
};

static struct timeout in_milliseconds(int given) {
    struct timeout timeout = {.units = given < 0 ? -1 : (int64_t)given * MILLISECOND};
    if (is_logged) snprintf(timeout.said.of, sizeof timeout.said.of, "%d", given);
    return timeout;
}

static struct timeout in_time(const struct timespec *given) {
    struct timeout timeout = {.units = given ? units_of(given) : -1};
    if (is_logged) time_text(&timeout.said, given);
    return timeout;
}

/* As select(2) has it. */
static struct timeout in_short_time(const struct timeval *given) {
    struct timespec same = {given ? given->tv_sec : 0, given ? given->tv_usec * 1000 : 0};
    struct timeout timeout = {.units = given ? units_of(&same) : -1};
    if (is_logged) short_time_text(&timeout.said, given);
    return timeout;
}

/* A poll that finds nothing takes no time. But a program may poll until its clock has gone on: so after some in a row
   each further one takes a while. While a child lives, those take one that have taken real time. */
static void take_a_while(int found, int64_t units) {
    enum { FREE = 100 };
    static _Thread_local uint64_t last;
    static _Thread_local int in_a_row;
    bool has_passed;
    if (found != 0 || units != 0) {
        in_a_row = 0;
        return;
    }
    has_passed = has_children() && look_for_nothing();
    in_a_row = moment_now() == last ? in_a_row + 1 : 1;
    if (has_passed || in_a_row > FREE) let_clock_go_on();
    last = moment_now();
}

/* So much of a set of signals does the real kernel read. */
enum { SET_SIZE = 8 };

/* A mask of signals for the time of a wait, if there is one. */
struct masking {
    const sigset_t *mask;
    uint64_t before;
};

static struct masking begin_masking(const sigset_t *mask) {
    return (struct masking){mask, mask ? swap_mask(mask) : 0};
}

static void end_masking(struct masking masking) {
    if (masking.mask) put_mask_back(masking.before);
}

/* ---- epoll ---- */

static const char *word_of(int op) {
    switch (op) {
    case EPOLL_CTL_ADD: return "EPOLL_CTL_ADD";
    case EPOLL_CTL_DEL: return "EPOLL_CTL_DEL";
    case EPOLL_CTL_MOD: return "EPOLL_CTL_MOD";
    default: return "?";
    }
}

/* Whether a descriptor is open. Nobody waits to write to a pidfd, though the eventfd that it is has room for more. What
   an instance asks for no more, as after libuv's look whether it takes a descriptor, is free for a child. */
static bool may_be_watched(int fd, struct epoll_event *wanted) {
    struct description *description = hold(fd);
    if (!description) return false;
    description->is_watched = wanted && (wanted->events & EPOLLIN);
    if (wanted && description->kind == PIDFD) wanted->events &= ~(uint32_t)EPOLLOUT;
    let_go(description);
    return true;
}

static bool is_open(int fd) {
    struct description *description = hold(fd);
    if (description) let_go(description);
    return description != NULL;
}

FORWARD(epoll_ctl)

int epoll_ctl(int epfd, int op, int fd, struct epoll_event *event) {
    struct epoll_event asked, *wanted = op == EPOLL_CTL_DEL ? NULL : &asked;
    int status = -EBADF;
    HAND_ON_OF(is_lost(epfd) ? epfd : fd, "epoll_ctl", next_epoll_ctl()(epfd, op, fd, event));
    QUIET;
    if (op != EPOLL_CTL_DEL && !READABLE(event))
        return (int)ANSWER(-EFAULT, "epoll_ctl(%d, %s, %d, %p)", epfd, word_of(op), fd, (void *)event);
    if (!is_simulated(epfd) && epfd >= 0)
        return refuse(EBADF, "epoll_ctl(%d): no simulated instance has this descriptor", epfd);
    if (!is_simulated(fd) && fd >= 0)
        return refuse(EPERM, "epoll_ctl(%d, %s, %d): a real descriptor in a simulated instance", epfd, word_of(op), fd);
    if (wanted) asked = *event;
    if (is_open(epfd) && may_be_watched(fd, wanted))
        status = nippersage_epoll_ctl(self(), epfd - FIRST, op, fd - FIRST, wanted);
    return (int)ANSWER(status, "epoll_ctl(%d, %s, %d, %s)", epfd, word_of(op), fd,
                       event_text(TEXT, wanted ? event : NULL));
}

/* How many of so many events there is room for, if not more than can be found are asked for. */
static int room_for(struct epoll_event *events, int most) {
    int least = most < (int)settings()->limits.watches ? most : (int)settings()->limits.watches;
    if (least <= 0 || can_write(events, (size_t)least * sizeof *events)) return most;
    while (least > 0 && !can_write(events, (size_t)least * sizeof *events)) least /= 2;
    return least;
}

static int wait_in(int epfd, struct epoll_event *events, int most, struct timeout timeout, const sigset_t *mask,
                   const char *call) {
    QUIET;
    int room = room_for(events, most);
    if ((mask && !can_read(mask, SET_SIZE)) || (room == 0 && most > 0))
        return (int)ANSWER(-EFAULT, "%s(%d, %p, %d, %s)", call, epfd, (void *)events, most, timeout.said.of);
    struct description *description = hold(epfd);
    struct wait wait = {.instance = epfd - FIRST, .place = description, .events = events, .most = room,
                        .timeout = timeout.units, .call = call};
    struct masking masking = begin_masking(mask);
    int count = -EBADF;
    if (description) {
        count = wait_at(&wait);
        let_go(description);
    }
    end_masking(masking);
    take_a_while(count, timeout.units);
    return (int)ANSWER(count, "%s(%d, %s, %d, %s)", call, epfd, reports_text(TEXT, events, count), most,
                       timeout.said.of);
}

FORWARD(epoll_wait)
FORWARD(epoll_pwait)
FORWARD(epoll_pwait2)

int epoll_wait(int epfd, struct epoll_event *events, int most, int timeout) {
    HAND_ON_OF(epfd, "epoll_wait", next_epoll_wait()(epfd, events, most, timeout));
    return wait_in(epfd, events, most, in_milliseconds(timeout), NULL, "epoll_wait");
}

int epoll_pwait(int epfd, struct epoll_event *events, int most, int timeout, const sigset_t *mask) {
    HAND_ON_OF(epfd, "epoll_pwait", next_epoll_pwait()(epfd, events, most, timeout, mask));
    return wait_in(epfd, events, most, in_milliseconds(timeout), mask, "epoll_pwait");
}

/* As on Linux, what is no time is told before what is no instance. */
int epoll_pwait2(int epfd, struct epoll_event *events, int most, const struct timespec *time, const sigset_t *mask) {
    struct timeout timeout;
    HAND_ON_OF(epfd, "epoll_pwait2", next_epoll_pwait2()(epfd, events, most, time, mask));
    if (!READABLE_OR_NULL(time)) return (int)ANSWER(-EFAULT, "epoll_pwait2(%d, %p)", epfd, (const void *)time);
    timeout = in_time(time);
    if (time && timeout.units < 0) return (int)ANSWER(-EINVAL, "epoll_pwait2(%d, %s)", epfd, timeout.said.of);
    return wait_in(epfd, events, most, timeout, mask, "epoll_pwait2");
}

/* ---- calls that block ---- */

/* 0, or minus an error number: -EAGAIN where the time is over, -EINTR after a handler. */
int wait_for_arrival(struct block *block, int fd, uint32_t events) {
    QUIET;
    struct epoll_event event = {.events = events | EPOLLET};
    struct wait wait = {.events = &event, .most = 1, .timeout = -1, .call = block->call, .restarts = block->restarts};
    uint64_t now = moment_now();
    int status = 0;
    if (block->end != FOREVER) wait.timeout = block->end > now ? (int64_t)(block->end - now) : 0;
    if (wait.timeout == 0) return -EAGAIN;
    if (block->instance < 0) {
        status = make_own_instance();
        if (status < 0) return status;
        block->instance = status;
        status = nippersage_epoll_ctl(self(), block->instance, EPOLL_CTL_ADD, fd - FIRST, &event);
    }
    wait.instance = block->instance;
    if (status == 0) status = wait_at(&wait);
    return status > 0 ? 0 : status == 0 ? -EAGAIN : status;
}

void end_block(struct block *block) {
    if (block->instance >= 0) end_own(block->instance);
}

/* ---- poll and select ---- */

/* What is waited for, and what was found, by the kernel's number: NUMBERS of each, from the first simulated one on. */
struct sought {
    uint32_t *wanted;
    uint32_t *shown;
    int highest; /* no number above it is wanted */
    bool has_simulated, has_real, has_closed, has_found, lacks_memory;
};

static bool begin_sought(struct sought *sought) {
    if (!sought->wanted) {
        sought->wanted = calloc(2 * (size_t)NUMBERS, sizeof *sought->wanted);
        sought->shown = sought->wanted ? sought->wanted + NUMBERS : NULL;
        sought->lacks_memory = !sought->wanted;
    }
    return !sought->lacks_memory;
}

static void end_sought(struct sought *sought) { free(sought->wanted); }

/* Gives its room back at the end of the function, whichever that is. */
#define SOUGHT __attribute__((cleanup(end_sought))) struct sought

static bool finds_any(const struct sought *sought) { return sought->has_found || sought->has_closed; }

/* Beside the events that are wanted of a number: it is wanted, though perhaps with no event. */
enum { IS_WANTED = 1 << 16 };

static void want(struct sought *sought, int fd, uint32_t events) {
    if (fd < 0) return;
    if (!is_simulated(fd)) {
        sought->has_real = true;
        return;
    }
    sought->has_simulated = true;
    if (fd >= FIRST + NUMBERS) {
        sought->has_closed = true;
        return;
    }
    if (!begin_sought(sought)) return;
    sought->wanted[fd - FIRST] |= events | IS_WANTED;
    if (fd - FIRST > sought->highest) sought->highest = fd - FIRST;
}

/* A real one shows nothing here. */
static uint32_t shown_by(const struct sought *sought, int fd) {
    if (!is_simulated(fd)) return 0;
    return fd < FIRST + NUMBERS ? sought->shown[fd - FIRST] : POLLNVAL;
}

/* Registers what is wanted in an instance. What isn't open shows POLLNVAL. */
static int register_all(struct sought *sought, int instance) {
    for (int n = 0; n <= sought->highest; n++) {
        struct epoll_event event = {.events = sought->wanted[n] & ~(uint32_t)IS_WANTED, .data.u64 = (uint64_t)n};
        int status;
        if (!(sought->wanted[n] & IS_WANTED)) continue;
        status = -EBADF;
        if (may_be_watched(n + FIRST, &event))
            status = nippersage_epoll_ctl(self(), instance, EPOLL_CTL_ADD, n, &event);
        if (status < 0 && status != -EBADF) return status;
        if (status == -EBADF) {
            sought->shown[n] = POLLNVAL;
            sought->has_closed = true;
        }
    }
    return 0;
}

/* Room for the events, and where they come from. */
struct source {
    int instance;
    struct epoll_event *events;
};

static int wait_once(struct sought *sought, const struct source *from, int64_t units, const char *call) {
    struct wait wait = {.instance = from->instance, .events = from->events, .most = NUMBERS,
                        .timeout = sought->has_closed ? 0 : units, .call = call};
    int count = wait_at(&wait);
    for (int i = 0; i < count; i++) sought->shown[from->events[i].data.u64] = from->events[i].events;
    sought->has_found = count > 0;
    if (!sought->has_closed) take_a_while(count, units);
    return count;
}

/* Waits until one of them shows something, or the time has passed. 0, or minus an error number. */
static int seek(struct sought *sought, int64_t units, const char *call) {
    struct source from = {-ENOMEM, sought->lacks_memory ? NULL : malloc((size_t)NUMBERS * sizeof *from.events)};
    int status;
    if (from.events) from.instance = make_own_instance();
    status = from.instance;
    if (from.instance >= 0) {
        status = register_all(sought, from.instance);
        if (status == 0) status = wait_once(sought, &from, units, call);
        end_own(from.instance);
    }
    free(from.events);
    return status < 0 ? status : 0;
}

/* A wait on real descriptors only: while it passes, time goes on here, too. */
#define REALLY(call, units)                                     \
    __extension__({                                             \
        struct timed outside;                                   \
        int64_t longest = (units);                              \
        int answer;                                             \
        if (longest > 0) begin_outside(&outside, longest, false); \
        answer = longest > 0 ? CANCELLABLE(&outside, call) : (call); \
        if (longest > 0) end_outside(&outside, answer == 0);    \
        take_a_while(answer, longest);                          \
        answer;                                                 \
    })

/* One on nothing: 0 or -EINTR. */
static int sleep_or_poll(int64_t units, const char *call) {
    if (units != 0) return sleep_for(units, call);
    take_a_while(0, 0);
    return 0;
}

static int mixes(const char *call) {
    return refuse(EPERM, "%s of real and simulated descriptors at once, of which none is ready, is not simulated", call);
}

/* The same with no time. */
static struct timeout at_once(const struct timeout *timeout) { return (struct timeout){0, timeout->said}; }

/* Fills in what poll answers. */
static int put_shown(const struct sought *sought, struct pollfd *files, nfds_t count) {
    int found = 0;
    for (nfds_t i = 0; i < count; i++) {
        uint32_t shown = files[i].fd < 0 ? 0 : shown_by(sought, files[i].fd);
        files[i].revents = (short)(shown & ((uint32_t)files[i].events | POLLERR | POLLHUP | POLLNVAL));
        if (files[i].revents != 0) found++;
    }
    return found;
}

static int poll_simulated(struct sought *sought, struct pollfd *files, nfds_t count, struct timeout timeout,
                          const sigset_t *mask, const char *call) {
    QUIET;
    struct masking masking = begin_masking(mask);
    int status = sought->has_simulated ? seek(sought, timeout.units, call) : sleep_or_poll(timeout.units, call);
    if (status == 0 && mask && timeout.units == 0 && !finds_any(sought) && let_pending_run()) status = -EINTR;
    end_masking(masking);
    if (status == 0) status = put_shown(sought, files, count);
    return (int)ANSWER(status, "%s(..., %lu, %s)", call, count, timeout.said.of);
}

static void want_all(struct sought *sought, struct pollfd *files, nfds_t count) {
    for (nfds_t i = 0; i < count; i++) want(sought, files[i].fd, (uint16_t)files[i].events);
}

/* 0, or minus the error number of a poll that isn't made: for more descriptors than the program may have, or for bad
   pointers. */
static int not_a_poll(struct pollfd *files, nfds_t count, const struct timespec *time, const sigset_t *mask) {
    if (!READABLE_OR_NULL(time) || (mask && !can_read(mask, SET_SIZE))) return -EFAULT;
    if (count > (nfds_t)getdtablesize()) return -EINVAL;
    return can_write(files, count * sizeof *files) ? 0 : -EFAULT;
}

/* A poll of more entries than the real kernel takes for the real limit on descriptors: one for each descriptor. */
static int poll_merged(struct pollfd *files, nfds_t count, const struct timespec *time, const sigset_t *mask) {
    struct pollfd *each = malloc((size_t)FIRST * sizeof *each);
    int found;
    if (!each) return (int)plain_answer(-ENOMEM);
    for (int fd = 0; fd < FIRST; fd++) each[fd] = (struct pollfd){-1, 0, 0};
    for (nfds_t i = 0; i < count; i++)
        if (files[i].fd >= 0) {
            each[files[i].fd].fd = files[i].fd;
            each[files[i].fd].events |= files[i].events;
        }
    found = ppoll(each, (nfds_t)FIRST, time, mask);
    if (found >= 0) found = 0;
    for (nfds_t i = 0; i < count && found >= 0; i++) {
        short shown = files[i].fd < 0 ? 0 : each[files[i].fd].revents;
        files[i].revents = (short)(shown & (files[i].events | POLLERR | POLLHUP | POLLNVAL));
        if (files[i].revents != 0) found++;
    }
    free(each);
    return found;
}

/* Real and simulated ones at once: what is ready now. A wait for both isn't simulated. */
static int poll_both(struct sought *sought, struct pollfd *files, nfds_t count, const struct timeout *timeout,
                     const sigset_t *mask, const char *call) {
    struct pollfd *real = count <= (nfds_t)FIRST ? malloc((size_t)count * sizeof *real) : NULL;
    int found, status;
    if (!real) return mixes(call);
    for (nfds_t i = 0; i < count; i++) {
        real[i] = files[i];
        if (is_simulated(files[i].fd)) real[i].fd = -1;
    }
    found = status = next_poll()(real, count, 0);
    if (found >= 0) status = poll_simulated(sought, files, count, at_once(timeout), found > 0 ? NULL : mask, call);
    for (nfds_t i = 0; i < count && status >= 0; i++) files[i].revents |= real[i].revents;
    free(real);
    if (status < 0) return status;
    return found + status == 0 && timeout->units != 0 ? mixes(call) : found + status;
}

int poll(struct pollfd *files, nfds_t count, int given) {
    SOUGHT sought = {.highest = -1};
    struct timeout timeout = in_milliseconds(given);
    int status;
    HAND_ON(next_poll()(files, count, given));
    status = not_a_poll(files, count, NULL, NULL);
    if (status < 0) return (int)ANSWER(status, "poll(%p, %lu, %s)", (void *)files, count, timeout.said.of);
    want_all(&sought, files, count);
    if (sought.has_real && sought.has_simulated) return poll_both(&sought, files, count, &timeout, NULL, "poll");
    if (sought.has_real && count > (nfds_t)FIRST) {
        struct timespec time = timespec_of(given < 0 ? 0 : (uint64_t)timeout.units);
        return poll_merged(files, count, given < 0 ? NULL : &time, NULL);
    }
    if (sought.has_real) return REALLY(next_poll()(files, count, given), timeout.units);
    return poll_simulated(&sought, files, count, timeout, NULL, "poll");
}

int ppoll(struct pollfd *files, nfds_t count, const struct timespec *time, const sigset_t *mask) {
    SOUGHT sought = {.highest = -1};
    struct timeout timeout;
    int status;
    HAND_ON(next_ppoll()(files, count, time, mask));
    status = not_a_poll(files, count, time, mask);
    if (status < 0) return (int)ANSWER(status, "ppoll(%p, %lu)", (void *)files, count);
    timeout = in_time(time);
    want_all(&sought, files, count);
    if (sought.has_real && !sought.has_simulated && count > (nfds_t)FIRST) return poll_merged(files, count, time, mask);
    if (sought.has_real && !sought.has_simulated)
        return REALLY(next_ppoll()(files, count, time, mask), timeout.units);
    if (time && timeout.units < 0) return (int)ANSWER(-EINVAL, "ppoll(..., %lu, %s)", count, timeout.said.of);
    if (sought.has_real) return poll_both(&sought, files, count, &timeout, mask, "ppoll");
    return poll_simulated(&sought, files, count, timeout, mask, "ppoll");
}

int __poll_chk(struct pollfd *files, nfds_t count, int timeout, size_t room);
int __poll_chk(struct pollfd *files, nfds_t count, int timeout, size_t room) {
    if (count > room / sizeof *files) abort();
    return poll(files, count, timeout);
}

/* The three sets of select, with the events that each waits for and those that make a descriptor a member of the
   answer. A program may have larger sets than the C library: they are words of bits, as many as `most` takes. */
struct sets {
    unsigned long *of[3];
};
enum { WORD = 8 * sizeof(unsigned long) };
static const uint32_t waits_for[3] = {EPOLLIN, EPOLLOUT, EPOLLPRI};
static const uint32_t answers_to[3] = {EPOLLIN | EPOLLHUP | EPOLLERR, EPOLLOUT | EPOLLERR, EPOLLPRI};

static struct sets sets_of(fd_set *reads, fd_set *writes, fd_set *excepts) {
    return (struct sets){{(unsigned long *)reads, (unsigned long *)writes, (unsigned long *)excepts}};
}

static bool has(const unsigned long *set, int fd) { return set && (set[fd / WORD] >> fd % WORD & 1); }

/* 0, or minus the error number of a select that isn't made. As on Linux, numbers above all that there may be are no
   members. */
static int not_a_select(int *most, const struct sets *sets) {
    if (*most < 0) return -EINVAL;
    if (*most > FIRST + NUMBERS) *most = FIRST + NUMBERS;
    for (int i = 0; i < 3; i++)
        if (sets->of[i] && !can_write(sets->of[i], ((size_t)*most + WORD - 1) / WORD * sizeof *sets->of[i]))
            return -EFAULT;
    return 0;
}

static void want_sets(struct sought *sought, int most, const struct sets *sets) {
    for (int fd = 0; fd < most; fd++)
        for (int i = 0; i < 3; i++)
            if (has(sets->of[i], fd)) want(sought, fd, waits_for[i]);
}

/* What isn't found is taken out of the sets, and as on Linux so is the rest of their last words. */
static int put_sets(const struct sought *sought, int most, const struct sets *sets) {
    int found = 0;
    for (int fd = 0; fd < (most + WORD - 1) / WORD * WORD; fd++)
        for (int i = 0; i < 3; i++) {
            if (!has(sets->of[i], fd)) continue;
            if (fd < most && (shown_by(sought, fd) & answers_to[i])) {
                found++;
            } else {
                sets->of[i][fd / WORD] &= ~(1UL << fd % WORD);
            }
        }
    return found;
}

static int select_simulated(struct sought *sought, int most, const struct sets *sets, struct timeout timeout,
                            const sigset_t *mask, const char *call) {
    QUIET;
    struct masking masking = begin_masking(mask);
    int status = sought->has_simulated ? seek(sought, timeout.units, call) : sleep_or_poll(timeout.units, call);
    if (status == 0 && mask && timeout.units == 0 && !finds_any(sought) && let_pending_run()) status = -EINTR;
    end_masking(masking);
    if (status == 0 && sought->has_closed) status = -EBADF;
    if (status == 0) status = put_sets(sought, most, sets);
    return (int)ANSWER(status, "%s(%d, ..., %s)", call, most, timeout.said.of);
}

/* Without memory NULL is kept, too. */
static struct sets real_part_of(const struct sets *sets, int most, unsigned long *room) {
    size_t words = ((size_t)most + WORD - 1) / WORD;
    struct sets real = {{NULL, NULL, NULL}};
    for (size_t i = 0; i < 3 && room; i++) {
        if (!sets->of[i]) continue;
        real.of[i] = memcpy(room + i * words, sets->of[i], words * sizeof *room);
        for (int fd = FIRST; fd < most; fd++) real.of[i][fd / WORD] &= ~(1UL << fd % WORD);
    }
    return real;
}

/* As poll_both. */
static int select_both(struct sought *sought, int most, const struct sets *sets, const struct timeout *timeout,
                       const sigset_t *mask, const char *call) {
    size_t words = ((size_t)most + WORD - 1) / WORD;
    unsigned long *room = malloc(3 * words * sizeof *room);
    struct sets real = real_part_of(sets, most, room);
    struct timeval none = {0, 0};
    int found, status;
    if (!room) return (int)plain_answer(-ENOMEM);
    found = status = next_select()(FIRST < most ? FIRST : most, (fd_set *)(void *)real.of[0],
                                   (fd_set *)(void *)real.of[1], (fd_set *)(void *)real.of[2], &none);
    if (found >= 0) status = select_simulated(sought, most, sets, at_once(timeout), found > 0 ? NULL : mask, call);
    for (size_t i = 0; i < 3 * words && status >= 0; i++)
        if (real.of[i / words]) sets->of[i / words][i % words] |= room[i];
    free(room);
    if (status < 0) return status;
    return found + status == 0 && timeout->units != 0 ? mixes(call) : found + status;
}

/* As Linux does, tells in *time how much of it is left. */
int select(int most, fd_set *reads, fd_set *writes, fd_set *excepts, struct timeval *time) {
    struct sets sets = sets_of(reads, writes, excepts);
    SOUGHT sought = {.highest = -1};
    struct timeout timeout;
    uint64_t end, now;
    struct timespec left;
    int found;
    HAND_ON(next_select()(most, reads, writes, excepts, time));
    found = WRITABLE_OR_NULL(time) ? not_a_select(&most, &sets) : -EFAULT;
    if (found < 0) return (int)ANSWER(found, "select(%d, ..., %p)", most, (void *)time);
    timeout = in_short_time(time);
    end = moment_now() + (uint64_t)(timeout.units < 0 ? 0 : timeout.units);
    want_sets(&sought, most, &sets);
    if (sought.has_real && !sought.has_simulated)
        return REALLY(next_select()(most, reads, writes, excepts, time), timeout.units);
    if (time && timeout.units < 0) return (int)ANSWER(-EINVAL, "select(%d, ..., %s)", most, timeout.said.of);
    found = sought.has_real ? select_both(&sought, most, &sets, &timeout, NULL, "select")
                            : select_simulated(&sought, most, &sets, timeout, NULL, "select");
    now = moment_now();
    left = timespec_of(now < end ? end - now : 0);
    if (time) *time = (struct timeval){left.tv_sec, left.tv_nsec / 1000};
    return found;
}

int pselect(int most, fd_set *reads, fd_set *writes, fd_set *excepts, const struct timespec *time,
            const sigset_t *mask) {
    struct sets sets = sets_of(reads, writes, excepts);
    SOUGHT sought = {.highest = -1};
    struct timeout timeout;
    int status;
    HAND_ON(next_pselect()(most, reads, writes, excepts, time, mask));
    status = READABLE_OR_NULL(time) && (!mask || can_read(mask, SET_SIZE)) ? not_a_select(&most, &sets) : -EFAULT;
    if (status < 0) return (int)ANSWER(status, "pselect(%d, ..., %p)", most, (const void *)time);
    timeout = in_time(time);
    want_sets(&sought, most, &sets);
    if (sought.has_real && !sought.has_simulated)
        return REALLY(next_pselect()(most, reads, writes, excepts, time, mask), timeout.units);
    if (time && timeout.units < 0) return (int)ANSWER(-EINVAL, "pselect(%d, ..., %s)", most, timeout.said.of);
    if (sought.has_real) return select_both(&sought, most, &sets, &timeout, mask, "pselect");
    return select_simulated(&sought, most, &sets, timeout, mask, "pselect");
}
