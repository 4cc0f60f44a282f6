/* Every order: how many there are, which fail, and what is refused. Numbers of orders are counted here by binomials, or
   by a recursion over what the manual pages say of the calls. */
#include "faults.h"
#include <pthread.h>
#include <unistd.h>

static struct nippersage_result explore(const struct example *example, const struct nippersage_options *options,
                                        int wanted) {
    static struct shared shared;
    struct nippersage_program program = program_of(example);
    struct nippersage_options given = options ? *options : (struct nippersage_options){0};
    struct nippersage_result result;
    int status;
    shared.example = example;
    given.most = example->most;
    status = nippersage_explore(&program, &shared, &given, &result);
    if (status != wanted) {
        fprintf(stderr, "%s: %d\n%s\n", example->name ? example->name : "", status, result.message);
        exit(1);
    }
    return result;
}

static void is_text(const char *found, const char *wanted) {
    if (found && strcmp(found, wanted) == 0) return;
    fprintf(stderr, "found  %s\nwanted %s\n", found ? found : "nothing", wanted);
    exit(1);
}

static void has_text(const char *found, const char *wanted) {
    if (found && strstr(found, wanted)) return;
    fprintf(stderr, "found  %s\nwanted %s\n", found ? found : "nothing", wanted);
    exit(1);
}

/* ---- numbers of orders ---- */

enum { AT_WAIT, AT_READ, ASLEEP };

/* In how many orders an edge-triggered loop and its peer go, from here on: so many messages are unread, the last came
   behind the last report or not, and so many will be written. */
static long orders_of_loop(int at, int unread, int is_fresh, int left, int once) {
    long sum = left > 0 ? orders_of_loop(at, unread + 1, 1, left - 1, once) : 0;
    if (at == AT_READ && once)
        sum += orders_of_loop(AT_WAIT, unread - 1, is_fresh, left, once);
    else if (at == AT_READ)
        sum += unread > 0 ? orders_of_loop(AT_READ, unread - 1, is_fresh, left, once)
                          : orders_of_loop(AT_WAIT, 0, is_fresh, left, once);
    else if (is_fresh && unread > 0)
        sum += orders_of_loop(AT_READ, unread, 0, left, once);
    else if (at == AT_WAIT)
        sum += orders_of_loop(ASLEEP, unread, is_fresh, left, once);
    return sum > 0 ? sum : 1;
}

static void counts_of_loops(int is_short) {
    static const struct {
        int once, writes;
        long orders;
    } loops[] = {{1, 3, 34}, {1, 6, 2702}, {0, 6, 6478}, {0, 3, 0}, {1, 1, 0}};
    for (size_t i = 0; i < sizeof loops / sizeof loops[0]; i++) {
        if (is_short && loops[i].writes > 3) continue;
        struct example example = {PIPE(loops[i].once ? reads_once : reads_all, EPOLLIN | EPOLLET, loops[i].writes, 1)};
        long by_hand = orders_of_loop(AT_WAIT, 0, 0, loops[i].writes, loops[i].once);
        enum nippersage_how hows[] = {NIPPERSAGE_EVERY, NIPPERSAGE_RISING};
        if (loops[i].orders) IS(by_hand, loops[i].orders);
        for (int k = 0; k < 2; k++) {
            struct nippersage_options options = {.how = hows[k], .goes_on = 1};
            struct nippersage_result result = explore(&example, &options, loops[i].once && loops[i].writes > 1);
            IS(result.runs, by_hand);
            IS(result.is_whole, 1);
            if (loops[i].once && loops[i].writes == 3) IS(result.failures, 16);
            if (loops[i].once && loops[i].writes == 6) IS(result.failures, 2216);
            nippersage_result_free(&result);
        }
    }
}

/* ---- tasks that wait for nothing ---- */

static int lines(struct nippersage_kernel *kernel, void *shared) {
    struct shared *e = start(shared);
    for (int i = 0; i < MOST; i++) e->eps[i] = nippersage_eventfd((struct nippersage_task){kernel, 0, 1}, 0, 0);
    return 0;
}

static int writes_on(struct nippersage_task task, void *shared, int most) {
    struct shared *e = shared;
    int me = (int)task.caller - 1;
    ssize_t count = nippersage_write(task, e->eps[me], &ONE, 8);
    return count < 0 ? (int)count : ++e->count[me] < most;
}

static int twice(struct nippersage_task task, void *shared) { return writes_on(task, shared, 2); }
static int six_times(struct nippersage_task task, void *shared) { return writes_on(task, shared, 6); }

static const struct example THREE = {
    .setup = lines, .tasks = {{.name = "a", .turn = twice}, {.name = "b", .turn = twice}, {.name = "c", .turn = twice}},
    .count = 3};
static const struct example SIX = {
    .setup = lines, .tasks = {{.name = "a", .turn = six_times}, {.name = "b", .turn = six_times}}, .count = 2};

/* 6!/(2!2!2!) orders of three tasks; of two with 6 calls each 2 have no pre-emption, 10 have one and 50 have two. */
static void counts_of_lines(void) {
    static const long up_to[] = {2, 12, 62};
    struct nippersage_options every = {.how = NIPPERSAGE_EVERY};
    struct nippersage_result result = explore(&THREE, &every, 0);
    IS(result.runs, 90);
    IS(result.turns, 540);
    IS(result.outcomes_count, 0);
    IS(result.outcomes == NULL, 1);
    nippersage_result_free(&result);
    for (int bound = 0; bound < 3; bound++) {
        struct nippersage_options options = {.how = NIPPERSAGE_BOUND, .bound = bound};
        result = explore(&SIX, &options, 0);
        IS(result.runs, up_to[bound]);
        IS(result.bound, bound);
        IS(result.is_whole, 0);
        nippersage_result_free(&result);
    }
    result = explore(&SIX, &(struct nippersage_options){.how = NIPPERSAGE_RISING}, 0);
    IS(result.runs, 924); /* 12!/(6!6!) */
    IS(result.is_whole, 1);
    nippersage_result_free(&result);
}

static void limits(void) {
    enum nippersage_how hows[] = {NIPPERSAGE_RISING, NIPPERSAGE_EVERY, NIPPERSAGE_RANDOM, NIPPERSAGE_PCT};
    struct nippersage_result result;
    for (int i = 0; i < 4; i++) {
        struct nippersage_options options = {.how = hows[i], .runs = 50, .seed = 3};
        result = explore(&SIX, &options, 0);
        IS(result.runs, 50);
        IS(result.is_whole, 0);
        has_text(result.message, "then the limit of 50 orders; not every order was tried; 0 failures; 600 turns, ");
        nippersage_result_free(&result);
    }
    result = explore(&SIX, &(struct nippersage_options){.runs = 50}, 0);
    IS(result.runs, 50);
    IS(result.bound, 1);
    has_text(result.message, "every order of at most 1 pre-emption: 25 orders, then the limit of 25 orders; "
                             "by chance, seed 0: 25 orders, then the limit of 50 orders; not every order was tried; ");
    nippersage_result_free(&result);
    result = explore(&SIX, &(struct nippersage_options){.how = NIPPERSAGE_EVERY, .seconds = 1e-9}, 0);
    IS(result.is_whole, 0);
    nippersage_result_free(&result);
}

/* ---- faults ---- */

static struct example in_threads(const struct example *example);

static void look_at_fault(const struct example *example) {
    struct nippersage_options rising = {.how = NIPPERSAGE_RISING};
    struct nippersage_result result = explore(example, &rising, example->kind != 0);
    if (example->kind) {
        is_text(result.order, example->smallest);
        IS(result.kind, example->kind);
        IS(result.runs, example->runs);
        IS(result.bound <= 1, 1);
    } else {
        IS(result.runs, example->whole);
        IS(result.is_whole, 1);
    }
    nippersage_result_free(&result);
}

static void look_at_replay(const struct example *example) {
    struct nippersage_options replay = {.order = example->smallest};
    struct nippersage_result result = explore(example, &replay, 1);
    is_text(result.order, example->smallest);
    IS(result.kind, example->kind);
    IS(result.runs, 1);
    IS(result.is_whole, 0);
    nippersage_result_free(&result);
}

static void look_by_chance(const struct example *example) {
    enum nippersage_how hows[] = {NIPPERSAGE_RANDOM, NIPPERSAGE_PCT};
    for (int i = 0; i < 2; i++) {
        struct nippersage_options options = {.how = hows[i], .seed = 5};
        struct nippersage_result result = explore(example, &options, 1), again = explore(example, &options, 1);
        IS(result.kind, example->kind);
        is_text(result.found, again.found);
        is_text(result.order, again.order);
        IS(result.runs, again.runs);
        nippersage_result_free(&result);
        nippersage_result_free(&again);
    }
}

static void faults(void) {
    for (int i = 0; i < FAULTS_COUNT; i++) {
        struct example threads = in_threads(&FAULTS[i]);
        look_at_fault(&FAULTS[i]);
        look_at_fault(&threads);
        if (!FAULTS[i].kind) continue;
        look_at_replay(&FAULTS[i]);
        look_at_replay(&threads);
        look_by_chance(&FAULTS[i]);
    }
}

static void message(void) {
    struct nippersage_options rising = {.how = NIPPERSAGE_RISING, .replay = "./test_loop"};
    struct nippersage_result result = explore(&FAULTS[0], &rising, 1);
    has_text(result.message,
             "asleep beside data: loop at 5: fd 3 shows IN, registered IN|ET, reported to loop in turn 4\n"
             "  order     peer*3 loop*3\n"
             "            6 turns, 1 switch; found with 7 turns, 2 switches; order 1, of 0 pre-emptions; ");
    has_text(result.message,
             " tried to make it small\n"
             "        setup  pipe2()                         (3, 4)\n"
             "        setup  epoll_create1()                 5\n"
             "        setup  epoll_ctl(5, ADD, 3, IN|ET, 7)\n"
             "     1  peer   write(4, \"ping\")                4\n"
             "     2  peer   write(4, \"ping\")                4\n"
             "     3  peer   write(4, \"ping\")                4\n"
             "     4  loop   epoll_wait(5, 1, -1)            [(IN, 7)]\n"
             "     5  loop   read(3, 4)                      \"ping\"\n"
             "     6  loop   epoll_wait(5, 1, -1)            sleeps\n"
             "  asleep    loop at 5: fd 3 shows IN, registered IN|ET, reported to loop in turn 4\n"
             "  replay    NIPPERSAGE_ORDER='peer*3 loop*3' ./test_loop\n"
             "  tried     rising bounds: 1 order, then the first failure; not every order was tried; 1 failure; 7 turns, ");
    nippersage_result_free(&result);
}

static int socket_pair(struct nippersage_kernel *kernel, void *shared) {
    struct shared *e = start(shared);
    int ends[2];
    TRY(nippersage_socketpair((struct nippersage_task){kernel, 0, 1}, AF_UNIX, SOCK_STREAM, 0, ends));
    e->reader = ends[0];
    e->writer = ends[1];
    return 0;
}

static int asks_a_socket(struct nippersage_task task, void *shared) {
    const struct shared *e = shared;
    struct nippersage_name name;
    char bytes[8];
    nippersage_peek(task, e->reader, bytes, 3);
    nippersage_write(task, e->writer, "ping", 4);
    nippersage_peek(task, e->reader, bytes, 3);
    nippersage_take_error(task, e->reader);
    nippersage_getsockname(task, e->reader, &name);
    nippersage_getpeername(task, 0, &name);
    nippersage_shutdown(task, e->reader, SHUT_RDWR);
    return nippersage_fail(task, "told");
}

/* The message of a task that fails as it is told, line by line. Blanks that only fill columns are left out. */
static void is_told(int (*run)(struct nippersage_task task, void *shared), const char *wanted) {
    struct example example = {.setup = socket_pair, .tasks = {{.name = "t", .run = run}}, .count = 1};
    struct nippersage_result result = explore(&example, NULL, 1);
    char *to = result.message;
    for (const char *from = result.message; *from; from++)
        if (*from != ' ' || (to > result.message && to[-1] != ' ')) *to++ = *from;
    *to = 0;
    has_text(result.message, wanted);
    nippersage_result_free(&result);
}

/* What a socket alone is asked. */
static void words_of_sockets(void) {
    is_told(asks_a_socket,
            " setup socketpair() (3, 4)\n"
            " 1 t peek(3, 3) EAGAIN\n"
            " 2 t write(4, \"ping\") 4\n"
            " 3 t peek(3, 3) \"pin\"\n"
            " 4 t take_error(3) 0\n"
            " 5 t getsockname(3) no name\n"
            " 6 t getpeername(0) ENOTSOCK\n"
            " 7 t shutdown(3, SHUT_RDWR)\n");
}

static int makes_sockets(struct nippersage_task task, void *shared) {
    struct nippersage_name name = {NIPPERSAGE_V6, 80}, any = {NIPPERSAGE_LOCAL, 0}, none = {NIPPERSAGE_V4, 65536};
    struct epoll_event event = {.events = EPOLLIN, .data.u64 = 7};
    (void)shared;
    nippersage_socket(task, AF_INET6, SOCK_STREAM | SOCK_CLOEXEC, 0);
    nippersage_socket(task, AF_UNIX, SOCK_STREAM, 0);
    nippersage_bind(task, 5, name);
    nippersage_bind(task, 6, any);
    nippersage_bind(task, 6, none);
    nippersage_getsockname(task, 6, &any);
    nippersage_connect(task, 6, any);
    nippersage_connect(task, 5, name);
    nippersage_take_error(task, 5);
    nippersage_epoll_create1(task, 0);
    nippersage_epoll_ctl(task, 7, EPOLL_CTL_ADD, 5, &event);
    nippersage_epoll_wait(task, 7, &event, 1, 0);
    nippersage_listen(task, 5, 5);
    nippersage_listen(task, 6, -1);
    nippersage_accept4(task, 6, SOCK_CLOEXEC | SOCK_NONBLOCK);
    nippersage_accept4(task, 6, 1);
    nippersage_accept4(task, 7, 0);
    return nippersage_fail(task, "told");
}

/* The calls of sockets without a connection. What is no name or no flag makes no event, and so has no line. */
static void words_of_new_sockets(void) {
    is_told(makes_sockets,
            " 1 t socket(tcp, CLOEXEC) 5\n"
            " 2 t socket(unix) 6\n"
            " 3 t bind(5, (v6, 80))\n"
            " 4 t bind(6, (local, 0))\n"
            " 5 t getsockname(6) (local, 32768)\n"
            " 6 t connect(6, (local, 32768)) ECONNREFUSED\n"
            " 7 t connect(5, (v6, 80)) EINPROGRESS\n"
            " 8 t take_error(5) 111\n"
            " 9 t epoll_create1() 7\n"
            " 10 t epoll_ctl(7, ADD, 5, IN, 7)\n"
            " 11 t epoll_wait(7, 1, 0) [(IN|HUP, 7)]\n"
            " 12 t listen(5, 5) EINVAL\n"
            " 13 t listen(6, -1)\n"
            " 14 t accept4(6, CLOEXEC) EAGAIN\n"
            " 15 t accept4(7) ENOTSOCK\n");
}

/* A socket is a file as any other: its registration is one of the instance at which a task sleeps. */
static int watched_socket(struct nippersage_kernel *kernel, void *shared) {
    struct shared *e = start(shared);
    struct nippersage_task task = {kernel, 0, 1};
    TRY(e->reader = nippersage_socket(task, AF_INET, SOCK_STREAM, 0));
    TRY(e->ep = nippersage_epoll_create1(task, 0));
    return add(task, e->ep, e->reader, EPOLLIN | EPOLLET, 7);
}

static int sleeps_beside(struct nippersage_task task, void *shared) {
    const struct shared *e = shared;
    struct epoll_event event;
    for (;;) TRY(nippersage_epoll_wait(task, e->ep, &event, 1, -1));
}

static int connects(struct nippersage_task task, void *shared) {
    const struct shared *e = shared;
    int status = nippersage_connect(task, e->reader, (struct nippersage_name){NIPPERSAGE_V4, 80});
    return status == -EINPROGRESS ? 0 : nippersage_fail(task, "it doesn't connect");
}

static void beside_a_socket(void) {
    struct example example = {.setup = watched_socket, .count = 2,
                              .tasks = {{.name = "loop", .run = sleeps_beside, .is_daemon = 1},
                                        {.name = "peer", .run = connects}}};
    struct nippersage_result result = explore(&example, NULL, 1);
    IS(result.kind, NIPPERSAGE_BESIDE);
    has_text(result.message, "asleep beside data: loop at 4: fd 3 shows IN|OUT|ERR|HUP|RDHUP, registered IN|ET, ");
    nippersage_result_free(&result);
}

/* The clock of its own accord: 6 orders if it goes only when nobody can, and 12 if at any point, of which 2 close the
   reader's end before a write. library/python/tests/test_orders.py counts them by hand. Three of the 12 close in some
   place once the time has passed before a; without a close these are one. */
static void clocks(void) {
    struct example faulty = {GIVES_UP(0)}, right = {GIVES_UP(1)};
    struct nippersage_options every = {.how = NIPPERSAGE_EVERY, .goes_on = 1};
    struct nippersage_result result = explore(&faulty, &every, 0);
    IS(result.runs, 6);
    nippersage_result_free(&result);
    every.clock_any = 1;
    result = explore(&faulty, &every, 1);
    IS(result.runs, 12);
    IS(result.failures, 2);
    is_text(result.order, "loop + loop*2 peer");
    has_text(result.message, "peer failed: EPIPE");
    nippersage_result_free(&result);
    result = explore(&right, &every, 0);
    IS(result.runs, 10);
    nippersage_result_free(&result);
}

static int not_seven(const struct nippersage_watch *watch, void *shared) {
    (void)shared;
    IS(watch->fd, 3);
    IS(watch->events, EPOLLIN | EPOLLET);
    IS(watch->shown, EPOLLIN);
    return watch->data != 7;
}

static void beside(void) {
    struct example faulty = FAULTS[0];
    struct nippersage_result result;
    faulty.check = NULL;
    result = explore(&faulty, &(struct nippersage_options){.how = NIPPERSAGE_EVERY, .not_beside = 1}, 0);
    IS(result.runs, 34);
    nippersage_result_free(&result);
    result = explore(&faulty, &(struct nippersage_options){.how = NIPPERSAGE_EVERY, .beside = not_seven}, 0);
    IS(result.runs, 34);
    nippersage_result_free(&result);
}

/* ---- threads ---- */

static int (*turn_of[MOST])(struct nippersage_task task, void *shared);

/* Makes the calls of a task that is called back, in a thread. */
static int run_on(struct nippersage_task task, void *shared) {
    int result = 1;
    while (result > 0) result = turn_of[task.caller - 1](task, shared);
    return result;
}

static struct example in_threads(const struct example *example) {
    struct example threads = *example;
    for (size_t i = 0; i < example->count; i++) {
        turn_of[i] = example->tasks[i].turn;
        threads.tasks[i].turn = NULL;
        threads.tasks[i].run = run_on;
    }
    return threads;
}

/* A task that waits by hand has as many orders. */
static int waits_by_hand(struct nippersage_task task, void *shared) {
    struct shared *e = shared;
    int me = (int)task.caller - 1, count;
    struct epoll_event event;
    if (e->at[me] == 1) return reads_all(task, shared);
    count = e->count[me] ? nippersage_resume(task, &event, 1) : nippersage_wait_start(task, e->ep, &event, 1, -1);
    e->count[me] = count == NIPPERSAGE_PARKED;
    if (count == NIPPERSAGE_PARKED) return 1;
    return next_at(task, e, count, 1);
}

static void by_hand(void) {
    struct example example = {PIPE(waits_by_hand, EPOLLIN | EPOLLET, 3, 1)};
    struct nippersage_result result = explore(&example, &(struct nippersage_options){.how = NIPPERSAGE_EVERY}, 0);
    IS(result.runs, 50);
    nippersage_result_free(&result);
}

/* ---- outcomes ---- */

static int waits_once(struct nippersage_task task, void *shared) {
    struct shared *e = shared;
    uint64_t value;
    ssize_t got;
    if (e->at[task.caller - 1] == 0) return wait_at(task, e, e->ep, 1);
    got = nippersage_read(task, e->reader, &value, 8);
    return got == 8 || got == -EAGAIN ? 0 : -EIO;
}

static int counter(struct nippersage_kernel *kernel, void *shared) {
    struct shared *e = start(shared);
    struct nippersage_task task = {kernel, 0, 1};
    TRY(e->eps[2] = e->reader = nippersage_eventfd(task, 0, 0));
    TRY(e->ep = nippersage_epoll_create1(task, 0));
    return add(task, e->ep, e->reader, EPOLLIN | EPOLLET, 3);
}

/* Each task writes `length` bytes, of which the last is its own; but the last task reads them. */
static int writes_or_reads(struct nippersage_task task, void *shared) {
    struct shared *e = shared;
    size_t length = (size_t)e->example->writes;
    ssize_t count;
    char bytes[32];
    memset(bytes, 'x', sizeof bytes);
    bytes[length - 1] = (char)('0' + task.caller);
    if (task.caller < e->example->count)
        count = nippersage_write(task, e->writer, bytes, length);
    else
        count = nippersage_read(task, e->reader, bytes, length);
    return count < 0 && count != -EAGAIN ? (int)count : 0;
}

static int fills(struct nippersage_task task, void *shared) {
    static const char bytes[4096];
    ssize_t count = nippersage_write(task, ((const struct shared *)shared)->writer, bytes, sizeof bytes);
    return count < 0 && count != -EAGAIN ? (int)count : 0;
}

static int signs(struct nippersage_task task, void *shared) {
    int status = nippersage_shared(task, "taken");
    ((struct shared *)shared)->taken = (int)task.caller;
    return status;
}

static const char *second_signs_last(struct nippersage_kernel *kernel, void *shared) {
    (void)kernel;
    return ((const struct shared *)shared)->taken == 2 ? NULL : "the first signed last";
}

static int dups_twice(struct nippersage_task task, void *shared) {
    struct shared *e = shared;
    int fd = nippersage_dup(task, 0);
    return fd < 0 ? fd : ++e->count[task.caller - 1] < 2;
}

#define TASK(name_, turn_) {.name = name_, .turn = turn_}
#define DAEMON(name_, turn_) {.name = name_, .turn = turn_, .is_daemon = 1}
#define WORKERS                                                                                     \
    .setup = counter, .tasks = {DAEMON("w1", waits_once), DAEMON("w2", waits_once), TASK("boss", twice)}, .count = 3
#define READS(length_)                                                                              \
    .setup = watched_pipe, .mask = EPOLLIN, .writes = length_, .count = 3,                          \
    .tasks = {TASK("a", writes_or_reads), TASK("b", writes_or_reads), TASK("c", writes_or_reads)}
#define SIGNS(check_)                                                                               \
    .setup = lines, .tasks = {TASK("a", signs), TASK("b", signs)}, .count = 2, .check = check_

/* An example, and how many of its orders come to each outcome, the most at the beginning. The tests in Python and in
   Rust count the same of the same examples, and library/python/tests/test_orders.py says how it is done by hand. */
struct counted {
    struct example example;
    struct nippersage_options options;
    int status;
    long runs[7];
};

static const struct nippersage_limits SMALL = {1024, 4096, 64, 4096, 4096, 65536};

static const struct counted COUNTED[] = {
    {{WORKERS}, {.not_beside = 1}, 0, {20, 14, 14, 14, 14}},
    {{PIPE(reads_once, EPOLLIN | EPOLLET, 3, 0)}, {0}, 1, {18, 14, 2}},
    {{GIVES_UP(0)}, {0}, 0, {4, 2}},
    {{GIVES_UP(0)}, {.clock_any = 1}, 1, {6, 3, 1, 1, 1}},
    {{READS(24)}, {0}, 0, {2, 2, 2}},
    {{READS(25)}, {0}, 0, {4, 2}},
    {{.setup = watched_pipe, .tasks = {TASK("a", fills), TASK("b", fills)}, .count = 2, .mask = EPOLLIN},
     {.limits = &SMALL}, 0, {1, 1}},
    {{.setup = flag, .tasks = {DAEMON("worker", flag_worker), TASK("boss", flag_boss)}, .count = 2}, {0}, 0, {2, 1}},
    {{SIGNS(NULL)}, {0}, 0, {2}},
    {{SIGNS(second_signs_last)}, {0}, 1, {1, 1}},
};
static const struct counted LARGE = {
    {PIPE(reads_once, EPOLLIN | EPOLLET, 6, 0)}, {0}, 1, {1026, 828, 486, 310, 50, 2}};

/* The first order of an outcome comes to it again. */
static void look_at_first(const struct counted *it, const struct example *example,
                          const struct nippersage_outcome *outcome) {
    struct nippersage_options options = it->options;
    struct nippersage_result result;
    options.order = outcome->order;
    options.outcomes = 1;
    result = explore(example, &options, outcome->kind != 0);
    IS(result.outcomes_count, 1);
    IS(result.outcomes[0].runs, 1);
    IS(result.outcomes[0].kind, outcome->kind);
    is_text(result.outcomes[0].order, outcome->order);
    nippersage_result_free(&result);
    IS(result.outcomes == NULL && result.outcomes_count == 0, 1);
}

static int compare_runs(const void *one, const void *other) {
    uint64_t a = ((const struct nippersage_outcome *)one)->runs, b = ((const struct nippersage_outcome *)other)->runs;
    return (a < b) - (a > b);
}

static void look_at_outcomes(const struct counted *it, const struct example *example, enum nippersage_how how) {
    struct nippersage_options options = it->options;
    struct nippersage_result result;
    uint64_t runs = 0, failures = 0;
    options.how = how;
    options.goes_on = options.outcomes = 1;
    result = explore(example, &options, it->status);
    IS(result.is_whole, 1);
    qsort(result.outcomes, result.outcomes_count, sizeof *result.outcomes, compare_runs);
    for (size_t i = 0; i < result.outcomes_count; i++) {
        const struct nippersage_outcome *outcome = &result.outcomes[i];
        IS(outcome->runs, it->runs[i]);
        runs += outcome->runs;
        if (outcome->kind) failures += outcome->runs;
        look_at_first(it, example, outcome);
    }
    IS(it->runs[result.outcomes_count], 0);
    IS(runs, result.runs);
    IS(failures, result.failures);
    nippersage_result_free(&result);
}

/* A dup answers the lowest free number, which tells its place: each of 6!/(2!2!2!) orders comes to something else. A
   fourth task without an answer has 7 places in each, so that every outcome comes again once all are known. */
static void many(void) {
    struct example example = THREE;
    struct nippersage_result result;
    for (int i = 0; i < 3; i++) example.tasks[i].turn = dups_twice;
    example.tasks[example.count++] = (struct nippersage_program_task)TASK("d", signs);
    result = explore(&example, &(struct nippersage_options){.how = NIPPERSAGE_EVERY, .outcomes = 1}, 0);
    IS(result.runs, 630);
    IS(result.outcomes_count, 90);
    for (size_t i = 0; i < result.outcomes_count; i++) IS(result.outcomes[i].runs, 7);
    nippersage_result_free(&result);
}

/* Depth first, the second order is the first one up to its last choice: whether the loop goes on behind one write. */
static void first_seen(void) {
    struct example example = {GIVES_UP(0)};
    struct nippersage_result result =
        explore(&example, &(struct nippersage_options){.how = NIPPERSAGE_EVERY, .outcomes = 1}, 0);
    IS(result.outcomes_count, 2);
    is_text(result.outcomes[0].order, "loop peer*2 loop*2");
    IS(result.outcomes[0].runs, 4);
    is_text(result.outcomes[1].order, "loop peer loop*2 peer");
    IS(result.outcomes[1].runs, 2);
    nippersage_result_free(&result);
}

static void outcomes(int is_short) {
    for (size_t i = 0; i < sizeof COUNTED / sizeof COUNTED[0]; i++) {
        struct example threads = in_threads(&COUNTED[i].example);
        look_at_outcomes(&COUNTED[i], &COUNTED[i].example, NIPPERSAGE_EVERY);
        look_at_outcomes(&COUNTED[i], &COUNTED[i].example, NIPPERSAGE_RISING);
        look_at_outcomes(&COUNTED[i], &threads, NIPPERSAGE_EVERY);
    }
    if (!is_short) look_at_outcomes(&LARGE, &LARGE.example, NIPPERSAGE_EVERY);
    many();
    first_seen();
}

/* ---- what is refused ---- */

static int varies(struct nippersage_task task, void *shared) {
    static int calls;
    const struct shared *e = shared;
    char digit = (char)('0' + calls++ % 10);
    return nippersage_write(task, e->writer, &digit, 1) < 0 ? -EIO : 0;
}

static int no_call(struct nippersage_task task, void *shared) {
    (void)task;
    (void)shared;
    return 1;
}

static int two_calls(struct nippersage_task task, void *shared) {
    nippersage_write(task, ((const struct shared *)shared)->writer, "a", 1);
    nippersage_write(task, ((const struct shared *)shared)->writer, "b", 1);
    return 0;
}

static int another_caller(struct nippersage_task task, void *shared) {
    task.caller = 9;
    nippersage_write(task, ((const struct shared *)shared)->writer, "a", 1);
    return 0;
}

static int says_why(struct nippersage_task task, void *shared) {
    nippersage_write(task, ((const struct shared *)shared)->writer, "a", 1);
    return nippersage_fail(task, "nobody likes it");
}

static void refused(struct example example, const struct nippersage_options *options, int status,
                    enum nippersage_kind kind, const char *text) {
    for (int i = 0; i < 2; i++) {
        struct nippersage_result result = explore(&example, options, status);
        IS(result.kind, kind);
        has_text(result.message, text);
        nippersage_result_free(&result);
        if (!example.tasks[0].turn || example.tasks[0].turn == no_call || example.tasks[0].turn == two_calls) return;
        example = in_threads(&example);
    }
}

static struct example one_task(int (*turn)(struct nippersage_task task, void *shared)) {
    return (struct example){.setup = watched_pipe, .tasks = {{.name = "t", .turn = turn}}, .count = 1, .mask = EPOLLIN};
}

/* An exploration that is refused tells no outcomes, though it has counted some. */
static void no_outcomes(void) {
    struct example example = one_task(varies);
    struct nippersage_result result = explore(&example, &(struct nippersage_options){.outcomes = 1}, -EINVAL);
    IS(result.runs, 1);
    IS(result.outcomes == NULL && result.outcomes_count == 0, 1);
    nippersage_result_free(&result);
}

static void bad_tasks(void) {
    struct example none = one_task(no_call);
    refused(one_task(varies), NULL, -EINVAL, NIPPERSAGE_NOT_THE_SAME,
            "\") of t, after the same turns. A task depends on something else than the kernel's answers");
    refused(none, NULL, -EINVAL, NIPPERSAGE_BAD_TASK, "the task t made no call in its turn");
    refused(one_task(two_calls), NULL, -EINVAL, NIPPERSAGE_BAD_TASK,
            "the task t made a second call in one turn: write(4, \"b\")");
    refused(one_task(another_caller), NULL, -EINVAL, NIPPERSAGE_BAD_TASK,
            "a call was made as caller 9 in a turn of t, which is caller 1");
    refused(one_task(says_why), NULL, 1, NIPPERSAGE_FAILED, "t failed: nobody likes it");
    none.tasks[0].name = "a b";
    refused(none, NULL, -EINVAL, NIPPERSAGE_BAD_TASK, "'a b' names no task");
    none.tasks[0].name = "t";
    none.tasks[0].run = no_call;
    refused(none, NULL, -EINVAL, NIPPERSAGE_BAD_TASK, "the task 't' has one function, turn or run");
    none.count = 0;
    refused(none, NULL, -EINVAL, NIPPERSAGE_BAD_PROGRAM, "a program has a setup, and 1 to 63 tasks");
}

static pthread_mutex_t lock = PTHREAD_MUTEX_INITIALIZER;

static int calls_under_a_lock(struct nippersage_task task, void *shared) {
    pthread_mutex_lock(&lock);
    nippersage_write(task, ((const struct shared *)shared)->writer, "a", 1);
    pthread_mutex_unlock(&lock);
    return 0;
}

static int never_ends(struct nippersage_task task, void *shared) {
    struct epoll_event event;
    nippersage_epoll_wait(task, ((const struct shared *)shared)->ep, &event, 1, -1);
    while (pause()) continue;
    return 0;
}

/* Threads that can't be ended are left alone, with what they use. */
static void threads_that_stay(void) {
    struct example locks = {.setup = watched_pipe, .mask = EPOLLIN, .count = 2,
                            .tasks = {{.name = "a", .run = calls_under_a_lock}, {.name = "b", .run = calls_under_a_lock}}};
    struct example stays = {.setup = watched_pipe, .mask = EPOLLIN, .count = 1,
                            .tasks = {{.name = "a", .run = never_ends, .is_daemon = 1}}};
    struct nippersage_options options = {.patience = 0.1};
    refused(locks, &options, -ETIMEDOUT, NIPPERSAGE_STUCK, "the task b made no call for 0.1 seconds: it waits for something");
    refused(stays, &options, -EINVAL, NIPPERSAGE_BAD_TASK, "the task a goes on though its order is over");
}

static void bad_schedules(void) {
    static const char *const bad[][2] = {
        {"", "the schedule '' has no turns"},
        {"peer*3 lop", "word 2 of the schedule 'peer*3 lop' names 'lop', and the tasks are loop, peer"},
        {"peer*0", "word 1 of the schedule 'peer*0' has no number of turns: it has 1 to 10000000"},
        {"peer*10000001", "has no number of turns"},
        {"peer*", "word 1 of the schedule 'peer*' is 'peer*', and no turns of a task: those are a name, or a name and"},
        {"2", "word 1 of the schedule '2' is '2', and no turns of a task"},
        {".. peer", "word 1 of the schedule '.. peer' is '..', which stands at the end only"},
        {"loop[1,0]", "and what a wait reports can't be chosen in this version"},
        {"peer*4", "turn 4 of the schedule is one of peer, which has come to its end"},
        {"loop*2", "turn 2 of the schedule is one of loop, which sleeps in a wait that nothing has ended"},
        {"+", "turn 1 of the schedule is one of +, which can't"},
        {"peer*2", "the schedule ends before turn 3, and loop, peer can go on; write .. at its end"},
        {"peer*3 loop*4", "the schedule has 1 more from turn 7 on, and nobody can go on"},
        {"1: peer", "the schedule '1: peer' has no name before its colon"},
    };
    for (size_t i = 0; i < sizeof bad / sizeof bad[0]; i++)
        refused(FAULTS[0], &(struct nippersage_options){.order = bad[i][0]}, -EINVAL, NIPPERSAGE_BAD_SCHEDULE, bad[i][1]);
    refused(SIX, &(struct nippersage_options){.order = "a*6 b*6 a"}, -EINVAL, NIPPERSAGE_BAD_SCHEDULE,
            "the schedule has 1 more from turn 13 on, and nobody can go on");
}

static void bad_options(void) {
    static const struct nippersage_limits none = {0};
    static const struct {
        struct nippersage_options options;
        const char *text;
    } bad[] = {
        {{.how = (enum nippersage_how)99}, "how is none"}, {{.bound = 1}, "bound is for"}, {{.bound = -1}, "bound is 0 at"},
        {{.depth = -1}, "depth is 1 at least"}, {{.seconds = -1}, "seconds are more than 0"}, {{.name = "a b"}, "the name of"},
        {{.limits = &none}, "a limit of the kernel is out of its range"},
    };
    for (size_t i = 0; i < sizeof bad / sizeof bad[0]; i++)
        refused(FAULTS[1], &bad[i].options, -EINVAL, NIPPERSAGE_BAD_OPTION, bad[i].text);
}

static void by_variable(void) {
    struct nippersage_options options = {.how = NIPPERSAGE_RISING, .name = "loops"};
    struct nippersage_result result;
    setenv("NIPPERSAGE_ORDER", "loops: peer*3 ..", 1);
    result = explore(&FAULTS[0], &options, 1);
    IS(result.runs, 1);
    is_text(result.order, FAULTS[0].smallest);
    has_text(result.message, "NIPPERSAGE_ORDER='loops: peer*3 loop*3'");
    nippersage_result_free(&result);
    options.name = "others";
    result = explore(&FAULTS[1], &options, 0);
    IS(result.runs, FAULTS[1].whole);
    nippersage_result_free(&result);
    unsetenv("NIPPERSAGE_ORDER");
}

/* Whether nippersage_check and a history are what they are without an order. Its name is NULL if none is asked for. */
static const char *history;

static const char *writes_history(struct nippersage_kernel *kernel, void *shared) {
    int fd = open(history, O_CREAT | O_TRUNC | O_WRONLY, 0600);
    (void)shared;
    IS(nippersage_check(kernel), 0);
    IS(nippersage_history(kernel, fd), 0);
    close(fd);
    return NULL;
}

static void histories(void) {
    struct example example = in_threads(&FAULTS[1]);
    struct nippersage_result result;
    example.check = writes_history;
    result = explore(&example, NULL, 0);
    nippersage_result_free(&result);
}

/* Arguments: the file that the history of an order goes to, and `short`, which leaves the large trees out. */
int main(int argc, char **argv) {
    counts_of_loops(argc > 2);
    counts_of_lines();
    limits();
    faults();
    message();
    words_of_sockets();
    words_of_new_sockets();
    beside_a_socket();
    clocks();
    beside();
    by_hand();
    outcomes(argc > 2);
    no_outcomes();
    bad_tasks();
    bad_schedules();
    bad_options();
    by_variable();
    history = argc > 1 ? argv[1] : "/dev/null";
    histories();
    if (argc <= 2) threads_that_stay();
    return 0;
}
