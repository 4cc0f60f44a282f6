/* Each allocation fails in turn: a call answers -ENOMEM, and asked again what it would have answered; nothing is lost.
   Linked with --wrap for malloc, calloc and realloc. */
#include "faults.h"

void *__real_malloc(size_t size);
void *__real_calloc(size_t count, size_t size);
void *__real_realloc(void *block, size_t size);

static long left = -1; /* allocations until one fails; none where it is below 0 */
static long failed;

static int fails(void) {
    if (left < 0 || left-- > 0) return 0;
    failed++;
    return 1;
}
void *__wrap_malloc(size_t size) { return fails() ? NULL : __real_malloc(size); }
void *__wrap_calloc(size_t count, size_t size) { return fails() ? NULL : __real_calloc(count, size); }
void *__wrap_realloc(void *block, size_t size) { return fails() ? NULL : __real_realloc(block, size); }

/* Asks until there is memory, once more at most, and compares. */
#define AGAIN(call, wanted)                           \
    do {                                              \
        long long answer = (call);                    \
        if (answer == -ENOMEM) answer = (call);       \
        IS(answer, wanted);                           \
    } while (0)

static void calls(struct nippersage_kernel *kernel) {
    struct nippersage_task one = {kernel, 1, 1}, two = {kernel, 2, 1};
    struct epoll_event event = {.events = EPOLLIN, .data.u64 = 7}, found[8];
    struct itimerspec second = {.it_value = {1, 0}};
    char bytes[64] = "0123456789012345678901234567890123456789";
    struct iovec vectors[2] = {{bytes, 20}, {bytes + 20, 20}};
    struct nippersage_watch watches[2];
    int ends[2], sink;
    struct timespec moment;
    AGAIN(nippersage_pipe2(one, ends, 0), 0);
    AGAIN(nippersage_epoll_create1(one, 0), 5);
    AGAIN(nippersage_epoll_ctl(one, 5, EPOLL_CTL_ADD, 3, &event), 0);
    AGAIN(nippersage_wait_start(one, 5, found, 8, -1), NIPPERSAGE_PARKED);
    AGAIN(nippersage_watches(one, 5, watches, 2), 1);
    AGAIN(nippersage_watches_awaited(kernel, 1, watches, 2), 1);
    AGAIN(nippersage_writev(two, 4, vectors, 2), 40);
    AGAIN(nippersage_resume(one, found, 8), 1);
    AGAIN(nippersage_readv(one, 3, vectors, 2), 40);
    AGAIN(nippersage_timerfd_create(one, CLOCK_MONOTONIC, 0), 6);
    AGAIN(nippersage_epoll_ctl(one, 5, EPOLL_CTL_ADD, 6, &event), 0);
    AGAIN(nippersage_timerfd_settime(one, 6, 0, &second, NULL), 0);
    AGAIN(nippersage_wait_start(one, 5, found, 8, -1), NIPPERSAGE_PARKED);
    AGAIN(nippersage_next_moment(kernel, &moment), 1);
    AGAIN(nippersage_tick(two, &second.it_value), 0);
    AGAIN(nippersage_resume(one, found, 8), 1);
    AGAIN(nippersage_fork(one), 2);
    AGAIN(nippersage_dup(one, 3), 7);
    AGAIN(nippersage_close(one, 3), 0);
    AGAIN(nippersage_socket(one, AF_INET, SOCK_STREAM, 0), 3);
    AGAIN(nippersage_bind(one, 3, (struct nippersage_name){NIPPERSAGE_V4, 0}), 0);
    AGAIN(nippersage_connect(one, 3, (struct nippersage_name){NIPPERSAGE_V4, 80}), -EINPROGRESS);
    AGAIN(nippersage_take_error(one, 3), ECONNREFUSED);
    AGAIN(nippersage_socket(one, AF_INET, SOCK_STREAM, 0), 8);
    AGAIN(nippersage_listen(one, 8, 5), 0);
    AGAIN(nippersage_accept4(one, 8, 0), -EAGAIN);
    AGAIN(nippersage_check(kernel), 0);
    sink = open("/dev/null", O_WRONLY);
    AGAIN(nippersage_history(kernel, sink), 0);
    close(sink);
}

/* If outcomes are counted the count is right or there is none, whatever was refused: so many orders come to the first
   of two, and the others to the second. */
static void look_at_outcomes(const struct nippersage_result *result, int status, uint64_t first) {
    if (status < 0) {
        IS(result->outcomes == NULL && result->outcomes_count == 0, 1);
        return;
    }
    IS(result->outcomes_count, result->runs > first ? 2 : 1);
    IS(result->outcomes[0].runs, first);
    if (result->runs > first) IS(result->outcomes[1].runs, result->runs - first);
}

/* An exploration answers something, and loses no memory. A call of its tasks may be the one that is refused: that is a
   failure, but where outcomes are counted. */
static int explores(const struct example *example, const struct nippersage_options *options, int wanted,
                    uint64_t first) {
    struct shared shared = {.example = example};
    struct nippersage_program program = program_of(example);
    struct nippersage_result result;
    int status = nippersage_explore(&program, &shared, options, &result);
    if (status >= 0 && options->outcomes) IS(status, wanted);
    if (options->outcomes) look_at_outcomes(&result, status, first);
    nippersage_result_free(&result);
    return status;
}

static void explore_without_memory(const struct example *example, const struct nippersage_options *options, int wanted,
                                   uint64_t first) {
    for (failed = 1, left = 0; failed > 0; left++) {
        long turn = left;
        failed = 0;
        IS(explores(example, options, wanted, first) <= 1, 1);
        left = turn;
    }
    left = -1;
    IS(explores(example, options, wanted, first), wanted);
}

/* A wait that nothing can end, beside one by hand. Its caller has left, or is parked as before, and no eventfd is left
   behind in any case. */
static void deadlock(struct nippersage_kernel *kernel) {
    struct nippersage_task one = {kernel, 1, 1}, two = {kernel, 2, 1};
    struct nippersage_waiter waiters[2];
    struct epoll_event found[8];
    int ep = nippersage_epoll_create1(one, 0), count;
    if (ep == -ENOMEM) ep = nippersage_epoll_create1(one, 0);
    AGAIN(nippersage_wait_start(two, ep, found, 8, -1), NIPPERSAGE_PARKED);
    AGAIN(nippersage_epoll_wait(one, ep, found, 8, -1), -EDEADLK);
    count = nippersage_deadlock(kernel, waiters, 2);
    IS(count == 2 || failed > 0, 1);
    if (nippersage_is_parked(kernel, 1) == 1) {
        IS(failed > 0, 1);
        AGAIN(nippersage_resume(one, found, 8), NIPPERSAGE_PARKED);
    } else {
        AGAIN(nippersage_eventfd(one, 0, 0), ep + 1);
    }
    AGAIN(nippersage_check(kernel), 0);
}

/* A task that goes on whatever its call answers. */
static int looks(struct nippersage_task task, void *shared) {
    struct epoll_event event;
    nippersage_epoll_wait(task, ((const struct shared *)shared)->ep, &event, 1, 0);
    return 0;
}

/* Nobody fails for want of memory here, neither a task nor the check: only the count would be wrong. */
static void count_without_memory(void) {
    struct nippersage_options every = {.how = NIPPERSAGE_EVERY, .outcomes = 1};
    struct nippersage_options one = {.order = "peer*3 loop*3", .outcomes = 1};
    struct example impatient = {GIVES_UP(0)}, unchecked = FAULTS[0];
    struct example looking = {.setup = watched_pipe, .mask = EPOLLIN, .count = 2,
                              .tasks = {{.name = "a", .run = looks}, {.name = "b", .run = looks}}};
    unchecked.check = NULL;
    explore_without_memory(&impatient, &every, 0, 4);
    explore_without_memory(&looking, &every, 0, 2);
    explore_without_memory(&unchecked, &one, 1, 1);
}

int main(void) {
    long turn = 0;
    do {
        struct nippersage_kernel *kernel;
        failed = 0;
        left = turn++;
        AGAIN(nippersage_open(NULL, &kernel), 0);
        calls(kernel);
        deadlock(kernel);
        left = -1;
        nippersage_free(kernel);
    } while (failed > 0);
    IS(turn > 20, 1);
    explore_without_memory(&FAULTS[0], &(struct nippersage_options){.order = "peer*3 loop*3"}, 1, 0);
    explore_without_memory(&FAULTS[1], &(struct nippersage_options){.how = NIPPERSAGE_RISING, .runs = 2}, 0, 0);
    explore_without_memory(&FAULTS[1], &(struct nippersage_options){.how = NIPPERSAGE_PCT, .runs = 1}, 0, 0);
    count_without_memory();
    return 0;
}
