/* Eight threads on one kernel: four pairs, each a writer that sends numbers over a pipe, with pauses of the simulated
   clock, and a reader that waits for them. Then the same by turns, of which a seed makes one history. Arguments: the
   file that the first history goes to, and `short`, which leaves the turns out. */
#include "check.h"
#include <pthread.h>

#define PAIRS 4
#define NUMBERS 200

struct pair {
    struct nippersage_task reader, writer;
    int ends[2], ep, pause;
    uint64_t sum;
};

static struct nippersage_kernel *kernel;

static void *write_numbers(void *argument) {
    struct pair *pair = argument;
    struct epoll_event found;
    for (uint32_t i = 1; i <= NUMBERS; i++) {
        IS(nippersage_write(pair->writer, pair->ends[1], &i, sizeof i), sizeof i);
        if (i % 8 == 0) IS(nippersage_epoll_wait(pair->writer, pair->pause, &found, 1, (int)(i % 5 + 1)), 0);
    }
    IS(nippersage_close(pair->writer, pair->ends[1]), 0);
    IS(nippersage_tasks(kernel, -1), 0);
    return NULL;
}

static void *read_numbers(void *argument) {
    struct pair *pair = argument;
    struct epoll_event found;
    uint32_t number;
    for (;;) {
        ssize_t got;
        IS(nippersage_epoll_wait(pair->reader, pair->ep, &found, 1, -1), 1);
        IS(found.data.u64, (uint64_t)pair->ends[0]);
        got = nippersage_read(pair->reader, pair->ends[0], &number, sizeof number);
        if (got == 0) break;
        IS(got, sizeof number);
        pair->sum += number;
    }
    IS(nippersage_tasks(kernel, -1), 0);
    return NULL;
}

static void open_pair(struct pair *pair, uint32_t number) {
    struct epoll_event event = {.events = EPOLLIN};
    pair->reader = (struct nippersage_task){kernel, 2 * number + 1, 1};
    pair->writer = (struct nippersage_task){kernel, 2 * number + 2, 1};
    IS(nippersage_pipe2(pair->reader, pair->ends, 0), 0);
    pair->ep = nippersage_epoll_create1(pair->reader, 0);
    pair->pause = nippersage_epoll_create1(pair->writer, 0);
    event.data.u64 = (uint64_t)pair->ends[0];
    IS(nippersage_epoll_ctl(pair->reader, pair->ep, EPOLL_CTL_ADD, pair->ends[0], &event), 0);
}

/* What the eight threads do, in turns by the seed or as they come. The history goes to this descriptor. */
static void run(const uint64_t *seed, int fd) {
    static struct pair pairs[PAIRS];
    pthread_t threads[2 * PAIRS];
    struct timespec moment;
    IS(nippersage_open(NULL, &kernel), 0);
    if (seed) IS(nippersage_take_turns(kernel, *seed), 0);
    memset(pairs, 0, sizeof pairs);
    for (uint32_t i = 0; i < PAIRS; i++) open_pair(&pairs[i], i);
    IS(nippersage_tasks(kernel, 2 * PAIRS), 0);
    for (int i = 0; i < PAIRS; i++) {
        IS(pthread_create(&threads[2 * i], NULL, read_numbers, &pairs[i]), 0);
        IS(pthread_create(&threads[2 * i + 1], NULL, write_numbers, &pairs[i]), 0);
    }
    for (int i = 0; i < 2 * PAIRS; i++) IS(pthread_join(threads[i], NULL), 0);
    for (int i = 0; i < PAIRS; i++) IS(pairs[i].sum, NUMBERS * (NUMBERS + 1) / 2);
    IS(nippersage_now(kernel, &moment), 0);
    IS(nanoseconds(moment) > 0, 1);
    IS(nippersage_check(kernel), 0);
    if (fd >= 0) IS(nippersage_history(kernel, fd), 0);
    nippersage_free(kernel);
}

/* The history of a run by this seed, and its length. To be freed. */
static char *history_of(uint64_t seed, size_t *length) {
    FILE *file = tmpfile();
    char *bytes;
    run(&seed, fileno(file));
    fseek(file, 0, SEEK_END);
    *length = (size_t)ftell(file);
    rewind(file);
    bytes = malloc(*length + 1);
    IS(fread(bytes, 1, *length, file), *length);
    fclose(file);
    return bytes;
}

static int is_same(uint64_t one, uint64_t other) {
    size_t first_length, second_length;
    char *first = history_of(one, &first_length), *second = history_of(other, &second_length);
    int result = first_length == second_length && memcmp(first, second, first_length) == 0;
    free(first);
    free(second);
    return result;
}

/* A thread that waits for what nobody writes. */
static void *waits_in_vain(void *argument) {
    struct pair *pair = argument;
    struct epoll_event found;
    IS(nippersage_epoll_wait(pair->reader, pair->ep, &found, 1, -1), -EDEADLK);
    IS(nippersage_resume(pair->reader, &found, 1), -EINVAL);
    IS(nippersage_tasks(kernel, -1), 0);
    return NULL;
}

static void deadlock(void) {
    static struct pair pair;
    pthread_t thread;
    IS(nippersage_open(NULL, &kernel), 0);
    open_pair(&pair, 0);
    IS(nippersage_take_turns(kernel, 1), 0);
    IS(nippersage_take_turns(kernel, 1), -EBUSY);
    IS(nippersage_take_turns(NULL, 1), -EINVAL);
    IS(nippersage_tasks(kernel, 1), 0);
    IS(pthread_create(&thread, NULL, waits_in_vain, &pair), 0);
    IS(pthread_join(thread, NULL), 0);
    nippersage_free(kernel);
    IS(nippersage_open(NULL, &kernel), 0);
    IS(nippersage_tasks(kernel, 1), 0);
    IS(nippersage_take_turns(kernel, 1), -EBUSY);
    nippersage_free(kernel);
}

int main(int argc, char **argv) {
    int fd = argc > 1 ? open(argv[1], O_CREAT | O_TRUNC | O_WRONLY, 0600) : -1;
    run(NULL, fd);
    if (fd >= 0) close(fd);
    if (argc > 2) return 0;
    IS(is_same(1, 1), 1);
    IS(is_same(7, 7), 1);
    IS(is_same(1, 7), 0);
    deadlock();
    return 0;
}
