/* An order from setup to its end, with tasks that are called back or run in threads. */
#include "orders.h"
#include "../turns.h"

#include <errno.h>
#include <inttypes.h>
#include <stdlib.h>
#include <time.h>

/* The most seconds that a thread may make no call once it was told that its order is over. */
#define SECONDS_TO_END 5.0

/* ---- tasks that are called back ---- */

static struct nippersage_task task_of(const struct search *search, int number) {
    return (struct nippersage_task){search->order.kernel, (uint32_t)number + 1, 1};
}

/* A task came to its end: 0, or minus an error number that it failed with. */
static void come_to_end(struct search *search, int number, int result) {
    struct order *order = &search->order;
    order->done |= set_of(number);
    if (result >= 0 || order->failed != NOBODY) return;
    order->failed = number;
    if (order->blamed == number) return;
    order->failure.length = 0;
    text_add(&order->failure, "%s", error_name(-(int64_t)result));
}

static void no_call(struct search *search, int number) {
    search->fault.kind = NIPPERSAGE_BAD_TASK;
    text_add(&search->fault.text, "the task %s made no call in its turn, or one that the library refused by itself; "
             "nippersage_shared is a turn without a call", name_of(&search->names, number));
}

/* What a task answers to a turn. A wait that sleeps is no failure of the task that hands its answer on. */
static int result_of(const struct nippersage_program_task *task, struct nippersage_task by, void *shared) {
    int result = task->turn(by, shared);
    return result == NIPPERSAGE_PARKED ? 1 : result;
}

static void run_by_turns(struct search *search) {
    int number;
    while ((number = order_next(&search->order)) != NOBODY) {
        int result = result_of(&search->program->tasks[number], task_of(search, number), search->shared);
        if (search->fault.kind || search->order.lacks) return;
        if (search->order.calls == 0 && result >= 0) {
            no_call(search, number);
            return;
        }
        if (result <= 0) come_to_end(search, number, result);
    }
}

/* ---- tasks in threads ---- */

struct thread {
    struct search *search;
    int number, has_started, has_ended;
    pthread_t thread;
};

struct threads {
    struct turns turns;
    struct thread all[MOST_TASKS];
};

/* Runs a task that is called back as a thread would run it. */
static int run_turns(const struct nippersage_program_task *task, struct nippersage_task by, void *shared) {
    int result = 1;
    while (result > 0) result = result_of(task, by, shared);
    return result;
}

static void *thread_main(void *argument) {
    struct thread *self = argument;
    struct search *search = self->search;
    const struct nippersage_program_task *task = &search->program->tasks[self->number];
    struct nippersage_task by = task_of(search, self->number);
    struct nippersage_kernel *kernel = by.kernel;
    int result;
    pthread_mutex_lock(&kernel->lock);
    kernel->turns->baton = pthread_self();
    kernel->turns->has_baton = 1;
    search->order.going = self->number;
    pthread_mutex_unlock(&kernel->lock);
    result = task->run ? task->run(by, search->shared) : run_turns(task, by, search->shared);
    pthread_mutex_lock(&kernel->lock);
    self->has_ended = 1;
    if (!kernel->turns->is_over) come_to_end(search, self->number, result < 0 ? result : 0);
    turns_pass(kernel->turns);
    pthread_mutex_unlock(&kernel->lock);
    return NULL;
}

/* Every thread that hasn't ended stands at a call. */
static int expected(struct turns *turns) {
    const struct order *order = turns->order;
    return order->search->names.count - count_of(order->done);
}

static struct seat *choose_in_order(struct turns *turns) {
    int number = order_next(turns->order);
    if (number != NOBODY)
        for (struct seat *seat = turns->seats; seat; seat = seat->next)
            if (seat->caller == (uint32_t)number + 1) return seat;
    turns_end(turns);
    return NULL;
}

static struct timespec in_seconds(double seconds) {
    struct timespec now;
    clock_gettime(CLOCK_MONOTONIC, &now);
    seconds = seconds < 1e9 ? seconds : 1e9;
    now.tv_sec += (time_t)seconds;
    now.tv_nsec += (long)((seconds - (double)(time_t)seconds) * 1e9);
    if (now.tv_nsec >= 1000000000) {
        now.tv_nsec -= 1000000000;
        now.tv_sec++;
    }
    return now;
}

/* Waits, under the lock, until this is so, while calls are made. 0, or -ETIMEDOUT if none was for so many seconds. */
static int wait_until(struct threads *threads, int (*is_so)(const struct threads *, int), int number, double seconds) {
    struct turns *turns = &threads->turns;
    size_t calls = SIZE_MAX;
    while (!is_so(threads, number)) {
        struct timespec end = in_seconds(seconds);
        int status = 0;
        while (status == 0 && !is_so(threads, number))
            status = pthread_cond_clockwait(&turns->changed, &turns->kernel->lock, CLOCK_MONOTONIC, &end);
        if (status != 0 && turns->order->now->count == calls) return -ETIMEDOUT;
        calls = turns->order->now->count;
    }
    return 0;
}

static int stands_or_ended(const struct threads *threads, int number) {
    if (threads->all[number].has_ended) return 1;
    for (const struct seat *seat = threads->turns.seats; seat; seat = seat->next)
        if (seat->caller == (uint32_t)number + 1) return 1;
    return 0;
}

static int is_over(const struct threads *threads, int number) {
    (void)number;
    return threads->turns.is_over;
}

static int has_ended(const struct threads *threads, int number) { return threads->all[number].has_ended; }

static void stuck(struct search *search, int number) {
    search->fault.kind = NIPPERSAGE_STUCK;
    search->is_abandoned = 1;
    text_add(&search->fault.text,
             "the task %s made no call for %g seconds: it waits for something that is not the kernel's, as a lock that "
             "another task has", name_of(&search->names, number), search->options.patience);
}

static void goes_on(struct search *search, int number) {
    search->fault.kind = NIPPERSAGE_BAD_TASK;
    search->is_abandoned = 1;
    text_add(&search->fault.text, "the task %s goes on though its order is over: it ends once a call answers -ECANCELED",
             name_of(&search->names, number));
}

static int start_thread(struct search *search, struct thread *thread) {
    const struct nippersage_options *options = &search->options;
    const char *name = name_of(&search->names, thread->number);
    if (options->start) return options->start(options->given, thread->number, name, thread_main, thread);
    return -pthread_create(&thread->thread, NULL, thread_main, thread);
}

static void join_thread(const struct search *search, struct thread *thread) {
    if (search->options.join)
        search->options.join(search->options.given, thread->number);
    else
        pthread_join(thread->thread, NULL);
}

/* Starts the tasks one after another, each up to its first call. */
static int start_threads(struct search *search, struct threads *threads) {
    for (int i = 0; i < search->names.count && search->order.failed == NOBODY && !search->fault.kind; i++) {
        struct thread *thread = &threads->all[i];
        int status = start_thread(search, thread);
        if (status < 0) return status;
        thread->has_started = 1;
        if (wait_until(threads, stands_or_ended, i, search->options.patience) < 0) {
            stuck(search, i);
            return -ETIMEDOUT;
        }
    }
    return 0;
}

/* Lets each task that sleeps come to its end, one after another. */
static void end_threads(struct search *search, struct threads *threads) {
    pthread_mutex_t *lock = &search->order.kernel->lock;
    double patience = search->options.patience < SECONDS_TO_END ? search->options.patience : SECONDS_TO_END;
    turns_end(&threads->turns);
    for (int i = 0; i < search->names.count && !search->is_abandoned; i++) {
        struct thread *thread = &threads->all[i];
        if (!thread->has_started) continue;
        turns_dismiss(&threads->turns, (uint32_t)i + 1);
        if (wait_until(threads, has_ended, i, patience) < 0) {
            goes_on(search, i);
            return;
        }
        pthread_mutex_unlock(lock);
        join_thread(search, thread);
        pthread_mutex_lock(lock);
    }
}

static int run_in_threads(struct search *search) {
    struct order *order = &search->order;
    struct threads *threads = calloc(1, sizeof *threads);
    int status;
    if (!threads) return -ENOMEM;
    if (turns_init(&threads->turns, order->kernel) < 0) {
        free(threads);
        return -ENOMEM;
    }
    threads->turns.order = order;
    threads->turns.expected = expected;
    threads->turns.choose = choose_in_order;
    for (int i = 0; i < search->names.count; i++) threads->all[i] = (struct thread){.search = search, .number = i};
    pthread_mutex_lock(&order->kernel->lock);
    order->kernel->turns = &threads->turns;
    status = start_threads(search, threads);
    if (status == 0) {
        threads->turns.is_open = 1;
        turns_pass(&threads->turns);
        if (order->failed != NOBODY || search->fault.kind) turns_end(&threads->turns);
        if (wait_until(threads, is_over, 0, search->options.patience) < 0) stuck(search, order->going);
    }
    if (!search->is_abandoned) end_threads(search, threads);
    order->kernel->turns = search->is_abandoned ? &threads->turns : NULL;
    pthread_mutex_unlock(&order->kernel->lock);
    if (search->is_abandoned) return 0;
    turns_free(&threads->turns);
    free(threads);
    return status;
}

/* ---- an order ---- */

static void reset_order(struct search *search, struct ways *ways) {
    struct order *order = &search->order;
    struct steps *now = order->before ? order->before : &search->steps[1];
    order->before = order->now ? order->now : &search->steps[0];
    order->now = now;
    order->compares = order->before->count > 0;
    now->count = now->reports_count = 0;
    order->search = search;
    order->ways = ways;
    order->phase = IN_SETUP;
    order->going = order->failed = order->blamed = NOBODY;
    order->owner = pthread_self();
    order->done = order->parked = 0;
    order->turns.count = order->chosen = 0;
    order->is_cut = order->is_unfair = order->lacks = order->calls = 0;
    order->failure.length = 0;
    order->fault = &search->fault;
    for (int i = 0; i <= MOST_TASKS; i++) order->passed_over[i] = 0;
}

static int set_up(struct search *search) {
    int status = search->program->setup(search->order.kernel, search->shared);
    if (status >= 0 || search->fault.kind) return 0;
    search->fault.kind = NIPPERSAGE_BAD_PROGRAM;
    text_add(&search->fault.text, "setup failed: %s", error_name(-(int64_t)status));
    return status;
}

static void left_over(struct search *search) {
    search->fault.kind = NIPPERSAGE_BAD_SCHEDULE;
    text_add(&search->fault.text, "the schedule has %zu more from turn %zu on, and nobody can go on",
             search->order.ways->given_left, search->order.turns.count + 1);
}

/* Runs the tasks, and looks at what may be wrong with the program and not with the order. */
static int run_tasks(struct search *search) {
    struct order *order = &search->order;
    int status = 0;
    order->phase = IN_TASKS;
    if (order->is_by_turn)
        run_by_turns(search);
    else
        status = run_in_threads(search);
    order->phase = AT_END;
    if (status < 0 && !search->fault.kind) return status;
    if (order->lacks) return -ENOMEM;
    if (!search->fault.kind && order->ways->is_foreign && order->failed == NOBODY && order->ways->given_left > 0)
        left_over(search);
    if (!search->fault.kind) order_look_at_end(order);
    return 0;
}

int run_order(struct search *search, struct ways *ways, struct verdict *verdict) {
    struct order *order = &search->order;
    int status;
    *verdict = (struct verdict){0, 0};
    if (order->kernel) nippersage_free(order->kernel);
    order->kernel = NULL;
    status = nippersage_open(search->options.limits, &order->kernel);
    if (status == -EINVAL) {
        search->fault.kind = NIPPERSAGE_BAD_OPTION;
        text_add(&search->fault.text, "a limit of the kernel is out of its range");
    }
    if (status < 0) return status;
    reset_order(search, ways);
    order->kernel->order = order;
    status = set_up(search);
    if (status == 0 && !search->fault.kind) status = run_tasks(search);
    if (status == 0 && !search->fault.kind) *verdict = judge(search);
    if (search->tables.lacks || order->lacks) return -ENOMEM;
    if (!search->fault.kind) return status;
    return search->fault.kind == NIPPERSAGE_STUCK ? -ETIMEDOUT : -EINVAL;
}
