/* Faults of loops, pools and proxies that some order of their calls shows, each beside what mends it. They are those of
   library/python/tests/faults.py. A task is called back, and `at` says which call is next. */
#ifndef FAULTS_H
#define FAULTS_H
#include "check.h"

enum { MOST = 4 };

/* What the tasks of an example share, and where each of them is. */
struct shared {
    const struct example *example;
    int reader, writer, ep, eps[MOST], second, third, fourth;
    int at[MOST], count[MOST], taken, idle, stops;
    uint32_t bits;
    uint64_t data[MOST];
    char text[64];
    size_t length;
};

struct example {
    const char *name, *smallest; /* the smallest order that fails, found by hand */
    enum nippersage_kind kind;
    int runs;                    /* the order by rising bounds that fails first */
    int whole;                   /* how many orders there are if it is right */
    int (*setup)(struct nippersage_kernel *kernel, void *shared);
    struct nippersage_program_task tasks[MOST];
    size_t count;
    const char *(*check)(struct nippersage_kernel *kernel, void *shared);
    uint32_t mask;
    int is_right, writes;
    uint32_t most;
};

static const uint64_t ONE = 1;

/* Leaves the function with the error of a call that was refused. */
#define TRY(call)                    \
    do {                             \
        int refused_ = (int)(call);  \
        if (refused_ < 0) return refused_; \
    } while (0)

static inline struct nippersage_program program_of(const struct example *example) {
    return (struct nippersage_program){example->setup, example->tasks, example->count, example->check};
}

static inline struct shared *start(void *shared) {
    const struct example *example = ((struct shared *)shared)->example;
    struct shared *e = shared;
    *e = (struct shared){.example = example};
    return e;
}

static inline int add(struct nippersage_task task, int ep, int fd, uint32_t mask, uint64_t data) {
    struct epoll_event event = {.events = mask, .data.u64 = data};
    return nippersage_epoll_ctl(task, ep, EPOLL_CTL_ADD, fd, &event);
}

/* A wait of a task without end: at `next` once it has a report. */
static inline int wait_at(struct nippersage_task task, struct shared *e, int ep, int next) {
    int me = (int)task.caller - 1;
    struct epoll_event event;
    int count = nippersage_epoll_wait(task, ep, &event, 1, -1);
    if (count < 0) return count; /* NIPPERSAGE_PARKED, too */
    e->bits = event.events;
    e->data[me] = event.data.u64;
    e->at[me] = next;
    return 1;
}

/* Goes on at `next` if the call was answered, and fails if it was refused. */
static inline int next_at(struct nippersage_task task, struct shared *e, long long answer, int next) {
    e->at[task.caller - 1] = next;
    return answer < 0 ? (int)answer : 1;
}

/* ---- a loop at a pipe: it reads once for each report; or all there is; and arms its one-shot again ---- */

static inline int watched_pipe(struct nippersage_kernel *kernel, void *shared) {
    struct shared *e = start(shared);
    struct nippersage_task task = {kernel, 0, 1};
    int ends[2];
    TRY(nippersage_pipe2(task, ends, 0));
    e->reader = ends[0];
    e->writer = ends[1];
    TRY(e->ep = nippersage_epoll_create1(task, 0));
    return add(task, e->ep, e->reader, e->example->mask, 7);
}

static inline int peer(struct nippersage_task task, void *shared) {
    struct shared *e = shared;
    ssize_t count = nippersage_write(task, e->writer, "ping", 4);
    return count < 0 ? (int)count : ++e->count[task.caller - 1] < e->example->writes;
}

static inline int reads_once(struct nippersage_task task, void *shared) {
    struct shared *e = shared;
    ssize_t got;
    if (e->at[task.caller - 1] == 0) return wait_at(task, e, e->ep, 1);
    got = nippersage_read(task, e->reader, e->text, 4);
    e->length += got > 0 ? (size_t)got : 0;
    return next_at(task, e, got, 0);
}

static inline int reads_all(struct nippersage_task task, void *shared) {
    struct shared *e = shared;
    struct epoll_event event = {.events = e->example->mask, .data.u64 = 7};
    ssize_t got;
    switch (e->at[task.caller - 1]) {
    case 0: return wait_at(task, e, e->ep, 1);
    case 1:
        got = nippersage_read(task, e->reader, e->text, 4);
        if (got == -EAGAIN) return next_at(task, e, 0, e->example->is_right && event.events & EPOLLONESHOT ? 2 : 0);
        e->length += got > 0 ? (size_t)got : 0;
        return next_at(task, e, got, 1);
    default: return next_at(task, e, nippersage_epoll_ctl(task, e->ep, EPOLL_CTL_MOD, e->reader, &event), 0);
    }
}

static inline const char *all_was_read(struct nippersage_kernel *kernel, void *shared) {
    const struct shared *e = shared;
    (void)kernel;
    return e->length == 4 * (size_t)e->example->writes ? NULL : "not all bytes were read";
}

/* ---- a herd: workers at an instance each. A write wakes them all, and one of them takes it ---- */

static inline int herd(struct nippersage_kernel *kernel, void *shared) {
    struct shared *e = start(shared);
    struct nippersage_task task = {kernel, 0, 1};
    TRY(e->reader = nippersage_eventfd(task, 0, EFD_SEMAPHORE));
    for (int i = 1; i <= 2; i++) {
        TRY(e->eps[i] = nippersage_epoll_create1(task, 0));
        TRY(add(task, e->eps[i], e->reader, e->example->mask, 0));
    }
    return 0;
}

static inline int herd_boss(struct nippersage_task task, void *shared) {
    const struct shared *e = shared;
    ssize_t count = nippersage_write(task, e->reader, &ONE, 8);
    return count < 0 ? (int)count : 0;
}

static inline int herd_worker(struct nippersage_task task, void *shared) {
    struct shared *e = shared;
    int me = (int)task.caller - 1;
    uint64_t value;
    ssize_t got;
    if (e->at[me] == 0) return wait_at(task, e, e->eps[me], 1);
    got = nippersage_read(task, e->reader, &value, 8);
    if (got == 8) e->taken++;
    return next_at(task, e, got == -EAGAIN && e->example->is_right ? 0 : got, 0);
}

static inline const char *was_taken(struct nippersage_kernel *kernel, void *shared) {
    const struct shared *e = shared;
    (void)kernel;
    return e->taken == 1 ? NULL : "the job was not taken";
}

/* ---- a pool at one instance. Who is told to stop passes it on; in the faulty one only if somebody idles ---- */

static inline int pool(struct nippersage_kernel *kernel, void *shared) {
    struct shared *e = start(shared);
    struct nippersage_task task = {kernel, 0, 1};
    TRY(e->reader = nippersage_eventfd(task, 0, EFD_SEMAPHORE));
    TRY(e->second = nippersage_eventfd(task, 0, 0));
    TRY(e->ep = nippersage_epoll_create1(task, 0));
    TRY(add(task, e->ep, e->reader, EPOLLIN, 1));
    return add(task, e->ep, e->second, EPOLLIN | EPOLLET, 2);
}

static inline int stop(struct nippersage_task task, void *shared) {
    const struct shared *e = shared;
    ssize_t count = nippersage_write(task, e->second, &ONE, 8);
    return count < 0 ? (int)count : 0;
}

static inline int pool_worker(struct nippersage_task task, void *shared) {
    struct shared *e = shared;
    int me = (int)task.caller - 1, status;
    uint64_t value;
    ssize_t got;
    switch (e->at[me]) {
    case 0:
        status = nippersage_shared(task, "idle");
        e->idle++;
        return next_at(task, e, status, 1);
    case 1: return wait_at(task, e, e->ep, 2);
    case 2:
        status = nippersage_shared(task, "idle");
        e->idle--;
        if (e->data[me] == 1) return next_at(task, e, status, 3);
        return e->example->is_right || e->idle > 0 ? next_at(task, e, status, 4) : status;
    case 3:
        got = nippersage_read(task, e->reader, &value, 8);
        return next_at(task, e, got == -EAGAIN ? 0 : got, 0);
    default: return stop(task, shared);
    }
}

/* ---- a proxy, which copies from a socket to another. The faulty one hands the end on before the bytes ---- */

static inline int proxy(struct nippersage_kernel *kernel, void *shared) {
    struct shared *e = start(shared);
    struct nippersage_task task = {kernel, 0, 1};
    int ends[2];
    TRY(nippersage_socketpair(task, AF_UNIX, SOCK_STREAM, 0, ends));
    e->writer = ends[0];
    e->reader = ends[1];
    TRY(nippersage_socketpair(task, AF_UNIX, SOCK_STREAM, 0, ends));
    e->third = ends[0];
    e->fourth = ends[1];
    TRY(e->ep = nippersage_epoll_create1(task, 0));
    return add(task, e->ep, e->reader, EPOLLIN | EPOLLRDHUP | EPOLLET, 1);
}

static inline int client(struct nippersage_task task, void *shared) {
    struct shared *e = shared;
    switch (e->at[task.caller - 1]) {
    case 0: return next_at(task, e, nippersage_write(task, e->writer, "GET", 3), 1);
    case 1: return next_at(task, e, nippersage_write(task, e->writer, " /", 2), 2);
    default: return nippersage_shutdown(task, e->writer, SHUT_WR);
    }
}

static inline int copies(struct nippersage_task task, void *shared) {
    struct shared *e = shared;
    ssize_t got;
    int status;
    switch (e->at[task.caller - 1]) {
    case 0:
        status = wait_at(task, e, e->ep, 1);
        if (e->at[task.caller - 1] == 1 && !e->example->is_right && e->bits & EPOLLRDHUP) e->at[task.caller - 1] = 3;
        return status;
    case 1:
        got = nippersage_read(task, e->reader, e->text, sizeof e->text);
        e->length = got > 0 ? (size_t)got : 0;
        return next_at(task, e, got == -EAGAIN ? 0 : got, got == -EAGAIN ? 0 : got == 0 ? 3 : 2);
    case 2: return next_at(task, e, nippersage_write(task, e->third, e->text, e->length), 1);
    default: return nippersage_shutdown(task, e->third, SHUT_WR);
    }
}

static inline const char *server_got_all(struct nippersage_kernel *kernel, void *shared) {
    const struct shared *e = shared;
    char got[64];
    ssize_t count = nippersage_read((struct nippersage_task){kernel, 0, 1}, e->fourth, got, sizeof got);
    return count == 5 && memcmp(got, "GET /", 5) == 0 ? NULL : "the server got something else";
}

/* ---- a worker that looks at a flag and then sleeps. In the faulty program it is set and nobody is woken ---- */

static inline int flag(struct nippersage_kernel *kernel, void *shared) {
    struct shared *e = start(shared);
    struct nippersage_task task = {kernel, 0, 1};
    TRY(e->second = nippersage_eventfd(task, 0, 0));
    TRY(e->ep = nippersage_epoll_create1(task, 0));
    return add(task, e->ep, e->second, EPOLLIN, 0);
}

static inline int flag_worker(struct nippersage_task task, void *shared) {
    struct shared *e = shared;
    int status;
    if (e->at[task.caller - 1] == 1) return wait_at(task, e, e->ep, 0);
    status = nippersage_shared(task, "stops");
    return e->stops ? status : next_at(task, e, status, 1);
}

static inline int flag_boss(struct nippersage_task task, void *shared) {
    struct shared *e = shared;
    int status;
    if (e->at[task.caller - 1] == 1) return stop(task, shared);
    status = nippersage_shared(task, "stops");
    e->stops = 1;
    return e->example->is_right ? next_at(task, e, status, 1) : status;
}

/* ---- a loop that reads what came, and in the faulty program does nothing about the end of the stream ---- */

static inline int ignores_end(struct nippersage_task task, void *shared) {
    struct shared *e = shared;
    int status;
    if (e->at[task.caller - 1] == 1) return next_at(task, e, nippersage_read(task, e->reader, e->text, 8), 0);
    e->bits = 0;
    status = wait_at(task, e, e->ep, 0);
    if (e->bits & EPOLLIN) e->at[task.caller - 1] = 1;
    return status == 1 && e->bits != 0 && !(e->bits & EPOLLIN) && e->example->is_right ? 0 : status;
}

static inline int writes_and_closes(struct nippersage_task task, void *shared) {
    struct shared *e = shared;
    if (e->at[task.caller - 1] == 0) return next_at(task, e, nippersage_write(task, e->writer, "a", 1), 1);
    return nippersage_close(task, e->writer);
}

/* ---- a loop that gives up after 5 ms, and in the faulty program closes its end ---- */

static inline int gives_up(struct nippersage_task task, void *shared) {
    struct shared *e = shared;
    struct epoll_event event;
    int count;
    switch (e->at[task.caller - 1]) {
    case 0:
        count = nippersage_epoll_wait(task, e->ep, &event, 1, 5);
        if (count == NIPPERSAGE_PARKED) return 1;
        if (count == 0 && e->example->is_right) return 0;
        return next_at(task, e, count, count > 0 ? 1 : 2);
    case 1: return nippersage_read(task, e->reader, e->text, 8) < 0 ? -EIO : 0;
    default: return nippersage_close(task, e->reader);
    }
}

#define PIPE(loop_, mask_, writes_, right_)                                                             \
    .setup = watched_pipe, .tasks = {{.name = "loop", .turn = loop_, .is_daemon = 1}, {.name = "peer", .turn = peer}}, \
    .count = 2, .check = all_was_read, .mask = mask_, .writes = writes_, .is_right = right_
#define HERD(mask_, right_)                                                                             \
    .setup = herd, .tasks = {{.name = "boss", .turn = herd_boss}, {.name = "w0", .turn = herd_worker, .is_daemon = 1}, \
    {.name = "w1", .turn = herd_worker, .is_daemon = 1}}, .count = 3, .check = was_taken, .mask = mask_, .is_right = right_
#define POOL(right_)                                                                                    \
    .setup = pool, .tasks = {{.name = "boss", .turn = stop}, {.name = "w0", .turn = pool_worker},       \
    {.name = "w1", .turn = pool_worker}}, .count = 3, .is_right = right_
#define PROXY(right_)                                                                                   \
    .setup = proxy, .tasks = {{.name = "client", .turn = client}, {.name = "proxy", .turn = copies}}, .count = 2, \
    .check = server_got_all, .is_right = right_
#define FLAG(right_)                                                                                    \
    .setup = flag, .tasks = {{.name = "worker", .turn = flag_worker}, {.name = "boss", .turn = flag_boss}}, .count = 2, \
    .is_right = right_
#define END(right_)                                                                                     \
    .setup = watched_pipe, .tasks = {{.name = "loop", .turn = ignores_end}, {.name = "peer", .turn = writes_and_closes}}, \
    .count = 2, .mask = EPOLLIN, .is_right = right_, .most = 100
#define GIVES_UP(right_)                                                                                \
    .setup = watched_pipe, .tasks = {{.name = "loop", .turn = gives_up}, {.name = "peer", .turn = peer}}, .count = 2, \
    .mask = EPOLLIN, .writes = 2, .is_right = right_

/* Each fault, and behind it what mends it. */
static const struct example FAULTS[] = {
    {"edge-triggered, reads once", "peer*3 loop*3", NIPPERSAGE_BESIDE, 1, 0, PIPE(reads_once, EPOLLIN | EPOLLET, 3, 0)},
    {"edge-triggered, reads all", NULL, 0, 0, 50, PIPE(reads_all, EPOLLIN | EPOLLET, 3, 1)},
    {"one-shot, never armed again", "peer loop*4 peer*2", NIPPERSAGE_BESIDE, 3, 0,
     PIPE(reads_all, EPOLLIN | EPOLLONESHOT, 3, 0)},
    {"one-shot, armed again", NULL, 0, 0, 74, PIPE(reads_all, EPOLLIN | EPOLLONESHOT, 3, 1)},
    {"a herd, each sure of its job", "boss w0 w1*2 w0", NIPPERSAGE_FAILED, 11, 0, HERD(EPOLLIN, 0)},
    {"a herd, careful", NULL, 0, 0, 80, HERD(EPOLLIN, 1)},
    {"the same with EXCLUSIVE", "boss w0 w1*2 w0", NIPPERSAGE_FAILED, 9, 0, HERD(EPOLLIN | EPOLLEXCLUSIVE, 0)},
    {"the same with EXCLUSIVE, careful", NULL, 0, 0, 50, HERD(EPOLLIN | EPOLLEXCLUSIVE, 1)},
    {"a pool whose stop is lost", "boss w0*3 w1*2", NIPPERSAGE_BESIDE, 1, 0, POOL(0)},
    {"a pool whose stop is passed on", NULL, 0, 0, 126, POOL(1)},
    {"a proxy that hands the end on", "client*3 proxy*2", NIPPERSAGE_CHECK, 1, 0, PROXY(0)},
    {"a proxy that hands the bytes on first", NULL, 0, 0, 68, PROXY(1)},
    {"a flag that wakes nobody", "worker*2 boss", NIPPERSAGE_FOR_GOOD, 1, 0, FLAG(0)},
    {"a flag that wakes somebody", NULL, 0, 0, 5, FLAG(1)},
    {"an end that is told for ever", "peer*2 loop*98", NIPPERSAGE_ENDLESS, 1, 0, END(0)},
    {"an end that is seen", NULL, 0, 0, 8, END(1)},
};

enum { FAULTS_COUNT = sizeof FAULTS / sizeof FAULTS[0] };
#endif
