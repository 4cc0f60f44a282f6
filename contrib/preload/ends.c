/* The real pipes and sockets of children: one for each open description that children inherit. The shim's own real
   descriptors stand above all numbers that the program can name, so that it can't close them, and none of its own
   numbers is taken for them. */
#include "children.h"

#include <poll.h>
#include <stdio.h>
#include <stdlib.h>
#include <sys/socket.h>

/* The first number that the program can't name. */
#define TOP (FIRST + NUMBERS)

struct end *find_end(struct end *list, const struct description *description) {
    while (list && list->description != description) list = list->next;
    return list;
}

/* ---- making ---- */

int lift(int fd) {
    long lifted;
    if (fd < 0) return fd;
    lifted = RAW(SYS_fcntl, fd, F_DUPFD_CLOEXEC, is_outside ? getdtablesize() - 16 : TOP);
    RAW(SYS_close, fd);
    return lifted == -EINVAL ? -EMFILE : (int)lifted;
}

static void close_if_open(int *fd) {
    if (*fd >= 0) RAW(SYS_close, *fd);
    *fd = -1;
}

/* Puts a new pair in its places. */
static int put_both(struct end *end, int real, int childs) {
    end->real = lift(real);
    end->childs = lift(childs);
    return end->real < 0 ? end->real : end->childs < 0 ? end->childs : 0;
}

/* Its room is a page: what the child hasn't read of it can be told by a look, and stays in the simulated pipe. */
static int make_pipe(struct end *end) {
    int both[2];
    long status = RAW(SYS_pipe2, both, O_CLOEXEC);
    if (status < 0) return (int)status;
    RAW(SYS_fcntl, both[0], F_SETPIPE_SZ, PAGE);
    return end->takes ? put_both(end, both[1], both[0]) : put_both(end, both[0], both[1]);
}

static int make_socket(struct end *end) {
    int both[2];
    long status = RAW(SYS_socketpair, AF_UNIX, SOCK_STREAM | SOCK_CLOEXEC, 0, both);
    return status < 0 ? (int)status : put_both(end, both[0], both[1]);
}

/* A child before this one has the same end of the pipe: its real pipe is opened once more. Of a socket there is a copy. */
static int share(struct end *end, const struct end *before) {
    char path[40];
    long fd;
    end->is_shared = true;
    if (end->is_socket) {
        fd = RAW(SYS_fcntl, before->kept, F_DUPFD_CLOEXEC, TOP);
        end->childs = fd == -EINVAL ? -EMFILE : (int)fd;
        return end->childs < 0 ? end->childs : 0;
    }
    snprintf(path, sizeof path, "/proc/self/fd/%d", before->real);
    fd = RAW(SYS_openat, AT_FDCWD, path, (end->takes ? O_RDONLY : O_WRONLY) | O_NONBLOCK | O_CLOEXEC, 0);
    end->childs = lift((int)fd);
    return end->childs < 0 ? end->childs : 0;
}

static int make_real(struct end *end) {
    const struct description *description = end->description;
    const struct end *before = find_end(all_ends, description);
    bool can_share = before && (!end->is_socket || before->kept >= 0);
    int status = can_share ? share(end, before) : end->is_socket ? make_socket(end) : make_pipe(end);
    if (status < 0) return status;
    RAW(SYS_fcntl, end->childs, F_SETFL, description->is_nonblocking ? O_NONBLOCK : 0);
    if (end->real >= 0) RAW(SYS_fcntl, end->real, F_SETFL, O_NONBLOCK);
    return 0;
}

static struct end *new_end(struct description *description, int number) {
    struct end *end = malloc(sizeof *end);
    bool is_socket = description->kind == SOCKET;
    if (!end) return NULL;
    *end = (struct end){.description = description, .number = number, .real = -1, .childs = -1, .kept = -1};
    end->is_socket = is_socket;
    end->takes = is_socket || description->access == O_RDONLY;
    end->gives = is_socket || description->access == O_WRONLY;
    add_holder(description);
    return end;
}

static int make_all(struct end **made) {
    struct end **last = made;
    bool closes;
    for (int n = 0; n < NUMBERS; n++) {
        struct description *description = description_at(n, &closes);
        int status;
        if (!description || (description->kind != PIPE && description->kind != SOCKET)) continue;
        if (find_end(*made, description)) continue;
        *last = new_end(description, n);
        if (!*last) return -ENOMEM;
        status = make_real(*last);
        if (status < 0) return status;
        last = &(*last)->next;
    }
    return 0;
}

int make_ends(struct end **made, int *pidfd) {
    struct rlimit before;
    int status = raise_real_limit(&before) ? 0 : -EMFILE;
    *made = NULL;
    if (status < 0) return status;
    *pidfd = lift((int)RAW(SYS_eventfd2, 0, O_CLOEXEC));
    status = *pidfd < 0 ? *pidfd : make_all(made);
    lower_real_limit(&before);
    if (status == 0) return 0;
    give_up_ends(*made);
    close_if_open(pidfd);
    *made = NULL;
    return status;
}

/* ---- ending ---- */

static struct end *free_end(struct end *end) {
    struct end *next = end->next;
    close_if_open(&end->childs);
    close_if_open(&end->kept);
    close_if_open(&end->real);
    if (end->description) drop_holder(end->description);
    free(end);
    return next;
}

void give_up_ends(struct end *made) {
    while (made) made = free_end(made);
}

/* What the child has written and nobody will read is thrown away: a socket that is closed with it would tell the child
   of a reset, in place of an end. */
static void throw_away(const struct end *end) {
    char bytes[PAGE];
    while (RAW(SYS_recvfrom, end->real, bytes, sizeof bytes, MSG_DONTWAIT, NULL, NULL) > 0) {}
}

void end_end_of_child(struct end *end) {
    if (end->is_socket) throw_away(end);
    show_no_more(end);
    nippersage_close(acting(end->process), end->number);
    log_child(end->pid, 0, "close(%d)", end->number + FIRST);
    close_if_open(&end->kept);
    close_if_open(&end->real);
    drop_holder(end->description);
    end->description = NULL;
}

void let_kept_go(struct end *end) { close_if_open(&end->kept); }

/* ---- after the fork ---- */

/* But for the one that is kept. */
static void close_own(unsigned int kept) {
    if (kept >= (unsigned int)TOP) {
        RAW(SYS_close_range, TOP, kept - 1, 0);
        RAW(SYS_close_range, kept + 1, ~0U, 0);
    } else {
        RAW(SYS_close_range, TOP, ~0U, 0);
    }
}

void take_numbers(struct end *made, int kept) {
    bool closes;
    give_limit_back(true);
    for (int n = 0; n < NUMBERS; n++) {
        struct description *description = description_at(n, &closes);
        struct end *end = description ? find_end(made, description) : NULL;
        int real = end ? end->childs : description && description->kind == PIDFD ? description->real_pidfd : -1;
        if (real >= 0) RAW(SYS_dup3, real, FIRST + n, closes ? O_CLOEXEC : 0);
    }
    close_own(kept < 0 ? 0 : (unsigned int)kept);
    give_limit_back(false);
}

static bool is_kept(struct end *made, int number) {
    while (made && made->number != number) made = made->next;
    return made && !made->is_shared;
}

static void link_end(struct end *end) {
    struct end **link = &all_ends;
    while (*link) link = &(*link)->next;
    end->next = NULL;
    *link = end;
    atomic_fetch_add(&living, 1);
}

void keep_ends(struct end *made, uint64_t process) {
    for (int n = 0; n < NUMBERS; n++)
        if ((is_taken(n) || n <= sleeping_instance()) && !is_kept(made, n)) nippersage_close(acting(process), n);
    while (made) {
        struct end *next = made->next;
        if (made->is_socket && !made->is_shared) {
            made->kept = made->childs;
            made->childs = -1;
        }
        close_if_open(&made->childs);
        if (made->is_shared) {
            free_end(made);
        } else {
            made->process = process;
            made->made = real_moment();
            link_end(made);
        }
        made = next;
    }
}
