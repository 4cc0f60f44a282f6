/* pidfds: each is an eventfd of the simulated kernel, which is made ready when its process ends. So it goes into
   instances and poll beside pipes. The real one behind it tells the end, and is what other calls take. */
#include "children.h"

#include <sys/socket.h>

FORWARD(pidfd_send_signal)

static struct description *waiting; /* those that aren't ready yet, the last one first: under the table's lock */

/* ---- making, and their end ---- */

static int lift_alone(int fd) {
    struct rlimit before;
    int lifted = -EMFILE;
    if (!raise_real_limit(&before)) return lifted;
    lifted = lift(fd);
    lower_real_limit(&before);
    return lifted;
}

int pidfd_open(pid_t pid, unsigned int flags) {
    int made;
    QUIET;
    if (is_outside) return (int)plain_answer(RAW(SYS_pidfd_open, pid, flags));
    made = (int)RAW(SYS_pidfd_open, pid, flags);
    if (made >= 0) made = lift_alone(made);
    if (made >= 0) made = put_pidfd(made);
    if (made >= 0) watch_threads();
    return (int)ANSWER(made, "pidfd_open(%d, %#x)", pid, flags);
}

void begin_pidfd(struct description *description) {
    description->next_pidfd = waiting;
    waiting = description;
    atomic_fetch_add(&living, 1);
}

static void stop_waiting(struct description *description) {
    struct description **link = &waiting;
    while (*link && *link != description) link = &(*link)->next_pidfd;
    if (!*link) return;
    *link = description->next_pidfd;
    atomic_fetch_sub(&living, 1);
}

void end_pidfd(struct description *description) {
    stop_waiting(description);
    RAW(SYS_close, description->real_pidfd);
}

/* ---- their readiness ---- */

int fill_pidfds(struct pollfd *files) {
    int count = 0;
    for (const struct description *each = waiting; each; each = each->next_pidfd)
        files[count++] = (struct pollfd){each->real_pidfd, POLLIN, 0};
    return count;
}

static void ring(struct description *description) {
    static const uint64_t one = 1;
    int number = number_of(description);
    if (number >= 0) nippersage_write(acting(1), number, &one, sizeof one);
    stop_waiting(description);
}

bool ring_pidfds(const struct pollfd *files) {
    struct description *each = waiting;
    bool has_rung = false;
    for (; each; files++) {
        struct description *next = each->next_pidfd;
        if (files->revents) ring(each);
        has_rung |= files->revents != 0;
        each = next;
    }
    return has_rung;
}

/* ---- calls that take one ---- */

int real_pidfd(int fd) {
    struct description *description = is_simulated(fd) ? hold(fd) : NULL;
    int real = description && description->kind == PIDFD ? description->real_pidfd : fd;
    if (description) let_go(description);
    return real;
}

int pidfd_send_signal(int fd, int signal, siginfo_t *info, unsigned int flags) {
    return next_pidfd_send_signal()(real_pidfd(fd), signal, info, flags);
}
