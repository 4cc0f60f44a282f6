/* Waits that nothing can end: each answers -EDEADLK, and its caller isn't parked any more. Argument: the file that a
   history goes to. */
#include "check.h"
#include <pthread.h>

static struct nippersage_kernel *kernel;
static struct nippersage_task one, two, three, four;
static struct epoll_event found[8];

static void begin(const struct nippersage_limits *limits) {
    IS(nippersage_open(limits, &kernel), 0);
    one = (struct nippersage_task){kernel, 1, 1};
    two = (struct nippersage_task){kernel, 2, 1};
    three = (struct nippersage_task){kernel, 3, 1};
    four = (struct nippersage_task){kernel, 4, 1};
}

static void end(void) {
    IS(nippersage_check(kernel), 0);
    nippersage_free(kernel);
}

static void add(int ep, int fd, uint32_t events) {
    struct epoll_event event = {.events = events, .data.u64 = (uint64_t)fd};
    IS(nippersage_epoll_ctl(one, ep, EPOLL_CTL_ADD, fd, &event), 0);
}

static void is_waiter(struct nippersage_waiter waiter, uint32_t caller, int ep, int most) {
    IS(waiter.caller, caller);
    IS(waiter.pid, 1);
    IS(waiter.epfd, ep);
    IS(waiter.maxevents, most);
    IS(waiter.has_timeout, 0);
}

static void is_number_free(int wanted) {
    int fd = nippersage_eventfd(one, 0, 0);
    IS(fd, wanted);
    IS(nippersage_close(one, fd), 0);
}

/* Two callers wait by hand, before the one that sleeps and above it. They wait as before, in their order, and what is
   registered one-shot above stays armed. */
static void among_others(int history) {
    struct nippersage_waiter waiters[4];
    struct nippersage_watch watch;
    int ep, outer, counter;
    begin(NULL);
    counter = nippersage_eventfd(one, 0, 0);
    ep = nippersage_epoll_create1(one, 0);
    outer = nippersage_epoll_create1(one, 0);
    add(ep, counter, EPOLLIN | EPOLLET);
    add(outer, ep, EPOLLIN | EPOLLONESHOT);
    IS(nippersage_wait_start(two, ep, found, 1, -1), NIPPERSAGE_PARKED);
    IS(nippersage_wait_start(three, outer, found, 2, -1), NIPPERSAGE_PARKED);
    IS(nippersage_wait_start(four, ep, found, 4, -1), NIPPERSAGE_PARKED);
    IS(nippersage_epoll_wait(one, ep, found, 3, -1), -EDEADLK);
    IS(nippersage_deadlock(kernel, waiters, 4), 4);
    is_waiter(waiters[0], 2, ep, 1);
    is_waiter(waiters[1], 3, outer, 2);
    is_waiter(waiters[2], 4, ep, 4);
    is_waiter(waiters[3], 1, ep, 3);
    IS(nippersage_is_parked(kernel, 1), 0);
    IS(nippersage_waiters(kernel, waiters, 4), 3);
    is_waiter(waiters[0], 3, outer, 2);
    is_waiter(waiters[1], 2, ep, 1);
    is_waiter(waiters[2], 4, ep, 4);
    IS(nippersage_first_marked(kernel, &(uint32_t){0}), 0);
    IS(nippersage_watches(one, outer, &watch, 1), 1);
    IS(watch.is_armed, 1);
    IS(watch.reported_in, 0);
    IS(nippersage_watches(one, ep, &watch, 1), 1);
    is_number_free(6);
    IS(nippersage_write(one, counter, "\1\0\0\0\0\0\0", 8), 8);
    IS(nippersage_is_marked(kernel, 2), 1);
    IS(nippersage_is_marked(kernel, 4), 0);
    IS(nippersage_resume(two, found, 1), 1);
    IS(found[0].data.u64, counter);
    IS(nippersage_epoll_wait(two, ep, found, 8, -1), -EDEADLK); /* three is marked, and waits by hand */
    IS(nippersage_is_parked(kernel, 2), 0);
    IS(nippersage_deadlock(kernel, NULL, 0), 3);
    IS(nippersage_deadlock(kernel, waiters, -1), -EINVAL);
    IS(nippersage_deadlock(kernel, NULL, 1), -EFAULT);
    IS(nippersage_deadlock(NULL, waiters, 1), -EINVAL);
    if (history >= 0) IS(nippersage_history(kernel, history), 0);
    end();
}

/* Without room for an eventfd the caller stays parked, and nothing of it is left. */
static void without_room(void) {
    struct nippersage_limits few = {4, 64, 4, 64, 4096, 4096}, none = {64, 64, 4, 0, 4096, 4096};
    int ep;
    begin(&few);
    ep = nippersage_epoll_create1(one, 0);
    IS(nippersage_epoll_wait(one, ep, found, 1, -1), -EDEADLK);
    IS(nippersage_is_parked(kernel, 1), 1);
    IS(nippersage_resume(one, found, 1), NIPPERSAGE_PARKED);
    end();
    begin(&none);
    ep = nippersage_epoll_create1(one, 0);
    IS(nippersage_epoll_wait(one, ep, found, 1, -1), -EDEADLK);
    IS(nippersage_is_parked(kernel, 1), 1);
    IS(nippersage_eventfd(two, 0, 0), ep + 1);
    end();
}

struct vain {
    struct nippersage_task task;
    int ep;
};

static void *waits_in_vain(void *argument) {
    struct vain *vain = argument;
    struct epoll_event event;
    IS(nippersage_epoll_wait(vain->task, vain->ep, &event, 1, -1), -EDEADLK);
    return NULL;
}

/* Begins a wait in another thread, and comes back when its caller is parked. */
static pthread_t begin_wait(struct vain *vain) {
    pthread_t thread;
    IS(pthread_create(&thread, NULL, waits_in_vain, vain), 0);
    while (nippersage_is_parked(kernel, vain->task.caller) != 1) sched_yield();
    return thread;
}

/* Of several threads each gets it, and no caller is parked any more. One whose instance has no number any more stays
   parked: the number names another one now. */
static void of_threads(void) {
    struct vain first, second, third;
    pthread_t threads[3];
    int ep, closed;
    begin(NULL);
    ep = nippersage_epoll_create1(one, 0);
    closed = nippersage_epoll_create1(one, 0);
    IS(nippersage_tasks(kernel, 4), 0);
    first = (struct vain){two, ep};
    second = (struct vain){three, ep};
    third = (struct vain){four, closed};
    threads[0] = begin_wait(&first);
    threads[1] = begin_wait(&second);
    threads[2] = begin_wait(&third);
    IS(nippersage_close(one, closed), 0);
    IS(nippersage_epoll_create1(one, 0), closed);
    IS(nippersage_epoll_wait(one, ep, found, 1, -1), -EDEADLK);
    for (int i = 0; i < 3; i++) IS(pthread_join(threads[i], NULL), 0);
    IS(nippersage_is_parked(kernel, 1), 0);
    IS(nippersage_is_parked(kernel, 2), 0);
    IS(nippersage_is_parked(kernel, 3), 0);
    IS(nippersage_is_parked(kernel, 4), 1);
    IS(nippersage_deadlock(kernel, NULL, 0), 4);
    end();
}

/* An event woke another caller than the one that sleeps beside data, and that one stays parked. So no report is lost. */
static void beside_data(void) {
    struct vain sleeps;
    pthread_t thread;
    int counter, first, second, empty;
    begin(NULL);
    counter = nippersage_eventfd(one, 0, 0);
    first = nippersage_epoll_create1(one, 0);
    second = nippersage_epoll_create1(one, 0);
    empty = nippersage_epoll_create1(one, 0);
    add(first, counter, EPOLLIN | EPOLLEXCLUSIVE);
    add(second, counter, EPOLLIN | EPOLLEXCLUSIVE);
    IS(nippersage_tasks(kernel, 2), 0);
    IS(nippersage_wait_start(two, first, found, 1, -1), NIPPERSAGE_PARKED);
    sleeps = (struct vain){three, second};
    thread = begin_wait(&sleeps);
    IS(nippersage_write(one, counter, "\1\0\0\0\0\0\0", 8), 8);
    IS(nippersage_resume(two, found, 1), 1);
    IS(nippersage_epoll_wait(one, empty, found, 1, -1), -EDEADLK);
    IS(pthread_join(thread, NULL), 0);
    IS(nippersage_is_parked(kernel, 1), 0);
    IS(nippersage_is_parked(kernel, 3), 1);
    IS(nippersage_is_marked(kernel, 3), 0);
    end();
}

int main(int argc, char **argv) {
    int fd = argc > 1 ? open(argv[1], O_CREAT | O_TRUNC | O_WRONLY, 0600) : -1;
    among_others(fd);
    if (fd >= 0) close(fd);
    without_room();
    of_threads();
    beside_data();
    return 0;
}
