/* The end of waits that nothing can end. In the kernel a wait ends by an event only, so the library makes one: it
 * registers a bell, an eventfd of its own that is ready, at the instance. That marks all who are parked there, one
 * after the other, and each leaves with a report of the bell. Then the bell goes, and whoever waited by hand is parked
 * again. All is under the lock, and all events are made as a caller that isn't parked. */
#include "kernel.h"

#include <errno.h>
#include <stdlib.h>
#include <string.h>

/* Notes who waits at what, for nippersage_deadlock. For want of memory nobody is noted. */
static void note(struct nippersage_kernel *kernel) {
    size_t count = kernel->parked_count;
    struct parked *room = realloc(kernel->dead, (count > 0 ? count : 1) * sizeof *room);
    kernel->dead_count = 0;
    if (!room) return;
    if (count > 0) memcpy(room, kernel->parked, count * sizeof *room);
    kernel->dead = room;
    kernel->dead_count = count;
}

/* Whether a wait would report something at the instance of this caller, or no memory was there to tell. */
static int is_ready(struct nippersage_kernel *kernel, uint32_t caller) {
    int count = kernel_watches_awaited(kernel, caller, NULL, 0), result = 0;
    struct nippersage_watch *all;
    if (count == 0) return 0;
    all = count > 0 ? malloc((size_t)count * sizeof *all) : NULL;
    if (!all) return 1;
    if (kernel_watches_awaited(kernel, caller, all, count) != count) result = 1;
    for (int i = 0; i < count && !result; i++) result = all[i].is_reportable;
    free(all);
    return result;
}

static int is_marked(struct nippersage_kernel *kernel, const struct parked *parked) {
    return ep_is_marked(&kernel->handle, parked->caller) == 1;
}

/* Who rings: a caller that isn't parked, in the process that waits. */
static struct nippersage_task ringer(struct nippersage_kernel *kernel, uint64_t pid) {
    struct nippersage_task task = {kernel, UINT32_MAX, pid};
    while (ep_is_parked(&kernel->handle, task.caller) == 1) task.caller--;
    return task;
}

static void hush(struct nippersage_task task, int bell) {
    struct exchange x = {.request = {.event = EP_CLOSE, .fd = bell}};
    kernel_make(task, &x);
}

/* The bell, at the instance of this number, or less than 0 if it can't be made or can't be registered. */
static int ring(struct nippersage_task task, int epfd) {
    struct exchange made = {.request = {.event = EP_EVENTFD, .count = 1}};
    int bell = (int)kernel_make(task, &made);
    struct exchange added = {.request = {.event = EP_CTL, .fd = epfd, .number = EPOLL_CTL_ADD, .target = bell}};
    if (bell < 0) return bell;
    added.request.count = EPOLLIN;
    if (kernel_make(task, &added) == 0) return bell;
    hush(task, bell);
    return -1;
}

static int64_t resume(struct nippersage_kernel *kernel, const struct parked *parked) {
    struct exchange x = {.request = {.event = EP_RESUME}, .reports = (size_t)parked->most};
    return kernel_make((struct nippersage_task){kernel, parked->caller, parked->pid}, &x);
}

/* Takes out those that wait at this number and are marked, and tells how many they are. One that leaves lets the next
 * one be marked, and both lists are in the order in which callers were parked. */
static size_t leave(struct nippersage_kernel *kernel, uint64_t pid, int epfd, struct parked *left) {
    size_t count = 0;
    for (size_t at = 0; at < kernel->parked_count;) {
        struct parked one = kernel->parked[at];
        if (one.pid == pid && one.epfd == epfd && is_marked(kernel, &one) && resume(kernel, &one) > 0) {
            left[count++] = one;
            kernel_forget_parked(kernel, &kernel->parked[at]);
        } else {
            at++;
        }
    }
    return count;
}

/* Takes the mark from whoever has got one by the bell, as at an instance above, and finds nothing. */
static void settle(struct nippersage_kernel *kernel) {
    for (size_t at = 0; at < kernel->parked_count; at++) {
        const struct parked *one = &kernel->parked[at];
        if (is_marked(kernel, one) && !one->was_marked && !is_ready(kernel, one->caller)) resume(kernel, one);
    }
}

/* Ends the waits at this number that sleep. `left` has room for all who are parked. A close needs no memory if its
 * record has room, so the bell goes in any case. */
static void end_waits_at(struct nippersage_kernel *kernel, uint64_t pid, int epfd, struct parked *left) {
    struct nippersage_task task = ringer(kernel, pid);
    size_t count = kernel->parked_count;
    int bell = ep_reserve(&kernel->handle, count + 3) < 0 ? -1 : ring(task, epfd);
    if (bell < 0) return;
    count = leave(kernel, pid, epfd, left);
    hush(task, bell);
    for (size_t i = 0; i < count; i++)
        if (!left[i].is_asleep) {
            struct nippersage_task again = {kernel, left[i].caller, pid};
            kernel_park(again, epfd, left[i].most, left[i].timeout);
        }
    settle(kernel);
}

/* The first that sleeps in a wait and wasn't looked at. Those at its number are looked at with it. */
static const struct parked *next_asleep(struct nippersage_kernel *kernel) {
    struct parked *first = NULL;
    for (size_t at = 0; at < kernel->parked_count; at++) {
        struct parked *one = &kernel->parked[at];
        if (!first && one->is_asleep && !one->was_tried) first = one;
        if (first && one->pid == first->pid && one->epfd == first->epfd) one->was_tried = 1;
    }
    return first;
}

void kernel_end_waits(struct nippersage_kernel *kernel) {
    const struct parked *next;
    size_t count = kernel->parked_count;
    struct parked *left;
    note(kernel);
    if (kernel->order) return; /* it sees every event, and would see these */
    left = malloc((count > 0 ? count : 1) * sizeof *left);
    if (!left) return;
    for (size_t at = 0; at < count; at++) {
        kernel->parked[at].was_tried = 0;
        kernel->parked[at].was_marked = is_marked(kernel, &kernel->parked[at]);
    }
    while ((next = next_asleep(kernel)))
        if (!is_ready(kernel, next->caller)) end_waits_at(kernel, next->pid, next->epfd, left);
    free(left);
}
