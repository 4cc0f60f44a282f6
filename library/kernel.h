/* A kernel as the files of this library know it. Nobody else includes this header. */
#ifndef NIPPERSAGE_KERNEL_H
#define NIPPERSAGE_KERNEL_H

#ifndef _GNU_SOURCE
#define _GNU_SOURCE
#endif
#include "exports.h"
#include "nippersage.h"

#include <pthread.h>
#include <stdatomic.h>

struct order;
struct turns;

/* A parked caller, and its wait: the most reports, and the timeout in microseconds, -1 where there is no end. */
struct parked {
    uint32_t caller;
    uint64_t pid;
    int epfd;
    int most;
    int64_t timeout;
    int is_asleep;              /* its thread sleeps in the wait; else it waits by hand */
    int was_marked, was_tried; /* of use only while waits are ended */
};

/* A thread that sleeps in a wait. It lies on that thread's stack, and is read and changed under the lock. */
struct sleeper {
    uint32_t caller;
    int status; /* what its wait answers if it is to end without its caller's: -EDEADLK */
    struct sleeper *next;
};

/* A descriptor that the history goes to as it comes, or NIPPERSAGE_FORGET. `status` is what ended it, or 0. */
struct stream {
    int fd, is_on, status;
    size_t bytes; /* that the records since the last write take */
};

struct nippersage_kernel {
    pthread_mutex_t lock;
    pthread_cond_t changed;
    struct ep_handle handle;
    atomic_uint inside; /* threads inside calls, also those that wait for the lock */
    unsigned int asleep;
    int tasks; /* threads that take part, also between two calls; 0 or more */
    struct sleeper *sleepers;
    struct parked *parked;
    size_t parked_count, parked_room;
    struct parked *dead; /* who waited when -EDEADLK was last answered */
    size_t dead_count;
    struct ep_report *reports; /* the room of each wait, one at a time */
    size_t reports_room;
    int most_reports;
    struct turns *turns; /* of threads that take turns, or NULL */
    struct order *order; /* the order whose calls these are, or NULL */
    struct stream stream;
    uint64_t forgotten; /* so many records are there no more */
};

/* What goes to the kernel and what comes back, beside numbers. */
struct exchange {
    struct ep_request request;
    struct ep_reply reply;
    const void *given;
    size_t given_length;
    void *bytes;
    size_t bytes_length;
    size_t reports;
};

/* Takes the lock for a call, and lets go of it. */
void kernel_enter(struct nippersage_kernel *kernel);
void kernel_leave(struct nippersage_kernel *kernel);

/* One event, under the lock. */
int64_t kernel_make(struct nippersage_task task, struct exchange *x);

/* Room for the reports of a wait, under the lock: 1, or 0 for want of memory. */
int kernel_has_reports(struct nippersage_kernel *kernel, size_t most);

/* Begins a wait, under the lock, with room for its reports and for one more parked caller. What the kernel answers. */
int64_t kernel_park(struct nippersage_task task, int epfd, int most, int64_t timeout);

/* Takes a caller out of those that are parked, and lets the others stay in their order. */
void kernel_forget_parked(struct nippersage_kernel *kernel, struct parked *gone);

/* Ends the waits of all that sleep in one, under the lock, since nothing else can. A wait stays if its instance is
 * ready, if the number that it named names that instance no more, or if there is no room for an eventfd and its
 * registration. */
void kernel_end_waits(struct nippersage_kernel *kernel);

/* As nippersage_watches_awaited, under the lock. */
int kernel_watches_awaited(struct nippersage_kernel *kernel, uint32_t caller, struct nippersage_watch *watches,
                           int room);

/* Counts an event of a kernel with a stream and what it came to, under the lock, and writes the history if there is
 * enough of it. */
void history_goes_on(struct nippersage_kernel *kernel, const struct exchange *x, int64_t result);

/* Moves the clock to the next moment, under the lock, as a call of this task; 0 if no tick has an effect. */
int kernel_go_on(struct nippersage_task task, int64_t *result);

#endif
