/* Threads that take turns: one goes on from one call to the next, and meanwhile the others stand at their calls. All is
 * under the kernel's lock. */
#ifndef NIPPERSAGE_TURNS_H
#define NIPPERSAGE_TURNS_H

#include "kernel.h"

/* A thread that stands at a call, or sleeps in a wait. It lies on that thread's stack. */
struct seat {
    uint32_t caller;
    int is_asleep, is_dismissed;
    int status; /* what its wait answers if it is to end without its caller's: -EDEADLK */
    pthread_cond_t go;
    struct seat *next; /* by callers */
};

struct turns {
    struct nippersage_kernel *kernel;
    struct seat *seats;
    int standing;    /* how many seats there are */
    int is_open;     /* whether a turn may begin as soon as everybody stands */
    int is_over;     /* nobody goes on any more: each call answers -ECANCELED */
    int has_baton;   /* whether a thread goes on; then it is this one */
    pthread_t baton;
    const struct seat *chosen; /* whose turn begins */
    pthread_cond_t changed;    /* somebody came to a call or to an end, or the turns are over */
    /* How many threads take part; whether this one may go on when it stands at a call; whose turn is next, or NULL. */
    int (*expected)(struct turns *turns);
    struct seat *(*choose)(struct turns *turns);
    uint64_t chance; /* where the numbers by chance have come to */
    struct order *order;
};

/* A number by chance, and the state behind it. The same state gives the same numbers on each machine. */
uint64_t turns_chance(uint64_t *state);

int turns_init(struct turns *turns, struct nippersage_kernel *kernel);
void turns_free(struct turns *turns);

/* A thread came to a call, or sleeps in a wait: it stands until its turn. 0, -ECANCELED if the turns are over, -EDEADLK
 * if nothing can end the wait, -EBUSY if another thread stands there as this caller, -ENOMEM. */
int turns_stand(struct turns *turns, uint32_t caller, int is_asleep);

/* The thread that goes on has come to its end. Then, or if `turns` have just been opened, the next one begins. */
void turns_pass(struct turns *turns);

/* Whether the thread that asks is the one that goes on. */
int turns_is_mine(const struct turns *turns);

/* Ends the turns: each call from now on answers -ECANCELED. Whoever stands at one goes on standing. */
void turns_end(struct turns *turns);

/* Lets whoever stands at a call as this caller come back with -ECANCELED, once the turns are over. */
void turns_dismiss(struct turns *turns, uint32_t caller);

#endif
