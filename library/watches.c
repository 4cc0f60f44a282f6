/* What is told of the registrations of an instance. */
#include "kernel.h"

#include <errno.h>
#include <stdlib.h>

/* Which instance is asked about: the one that a number of a process names, or the one at which a caller is parked. */
struct question {
    int is_of_caller;
    uint64_t pid;
    int epfd;
    uint32_t caller;
};

static int32_t ask(struct nippersage_kernel *kernel, const struct question *question, struct ep_watch *room,
                   size_t length, size_t *count) {
    if (question->is_of_caller) return ep_watches_awaited(&kernel->handle, question->caller, room, length, count);
    return ep_watches(&kernel->handle, question->pid, question->epfd, room, length, count);
}

static struct nippersage_watch watch_of(const struct ep_watch *told) {
    return (struct nippersage_watch){
        .fd = told->fd,
        .events = told->mask,
        .data = told->tag,
        .shown = told->shown,
        .is_armed = told->is_armed == 1,
        .is_reportable = told->is_reportable == 1,
        .reported_in = told->reported_in,
        .reported_to = told->reported_to,
    };
}

/* Tells the first registrations of them, under the lock. Room for them is made, and freed again. */
static int tell_first(struct nippersage_kernel *kernel, const struct question *question,
                      struct nippersage_watch *watches, size_t most) {
    struct ep_watch *room = malloc(most * sizeof *room);
    size_t count = 0;
    int32_t status;
    if (!room) return -ENOMEM;
    status = ask(kernel, question, room, most, &count);
    for (size_t i = 0; status == 0 && i < most; i++) watches[i] = watch_of(&room[i]);
    free(room);
    return status;
}

/* Tells them, under the lock: how many there are, or minus an error number. */
static int tell(struct nippersage_kernel *kernel, const struct question *question, struct nippersage_watch *watches,
                int room) {
    struct ep_watch none;
    size_t count = 0, most;
    int32_t status = ask(kernel, question, &none, 0, &count);
    if (status < 0) return status;
    most = count < (size_t)room ? count : (size_t)room;
    if (most > 0) status = tell_first(kernel, question, watches, most);
    return status < 0 ? status : (int)count;
}

static int tell_with_lock(struct nippersage_kernel *kernel, const struct question *question,
                      struct nippersage_watch *watches, int room) {
    int count;
    if (!kernel || room < 0) return -EINVAL;
    if (!watches && room > 0) return -EFAULT;
    kernel_enter(kernel);
    count = tell(kernel, question, watches, room);
    kernel_leave(kernel);
    return count;
}

int kernel_watches_awaited(struct nippersage_kernel *kernel, uint32_t caller, struct nippersage_watch *watches,
                           int room) {
    struct question question = {.is_of_caller = 1, .caller = caller};
    return tell(kernel, &question, watches, room);
}

int nippersage_watches(struct nippersage_task task, int epfd, struct nippersage_watch *watches, int room) {
    struct question question = {.pid = task.pid, .epfd = epfd};
    return tell_with_lock(task.kernel, &question, watches, room);
}

int nippersage_watches_awaited(struct nippersage_kernel *kernel, uint32_t caller, struct nippersage_watch *watches,
                               int room) {
    struct question question = {.is_of_caller = 1, .caller = caller};
    return tell_with_lock(kernel, &question, watches, room);
}
