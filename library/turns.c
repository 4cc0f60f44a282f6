/* Threads that take turns, and the turns of threads by a seed. */
#include "turns.h"

#include <errno.h>
#include <stdlib.h>

uint64_t turns_chance(uint64_t *state) {
    /* splitmix64 of Steele, Lea and Flood, 2014 */
    uint64_t z = *state += UINT64_C(0x9e3779b97f4a7c15);
    z = (z ^ (z >> 30)) * UINT64_C(0xbf58476d1ce4e5b9);
    z = (z ^ (z >> 27)) * UINT64_C(0x94d049bb133111eb);
    return z ^ (z >> 31);
}

int turns_init(struct turns *turns, struct nippersage_kernel *kernel) {
    *turns = (struct turns){.kernel = kernel};
    return pthread_cond_init(&turns->changed, NULL) == 0 ? 0 : -ENOMEM;
}

void turns_free(struct turns *turns) { pthread_cond_destroy(&turns->changed); }

int turns_is_mine(const struct turns *turns) {
    return turns->has_baton && pthread_equal(turns->baton, pthread_self());
}

/* Puts a seat where its caller's number has it. 0 if somebody stands there already. */
static int sit(struct turns *turns, struct seat *seat) {
    struct seat **link = &turns->seats;
    while (*link && (*link)->caller < seat->caller) link = &(*link)->next;
    if (*link && (*link)->caller == seat->caller) return 0;
    seat->next = *link;
    *link = seat;
    turns->standing++;
    return 1;
}

static void rise(struct turns *turns, const struct seat *seat) {
    struct seat **link = &turns->seats;
    while (*link != seat) link = &(*link)->next;
    *link = seat->next;
    turns->standing--;
}

void turns_end(struct turns *turns) {
    turns->is_over = 1;
    pthread_cond_broadcast(&turns->changed);
}

void turns_dismiss(struct turns *turns, uint32_t caller) {
    for (struct seat *seat = turns->seats; seat; seat = seat->next)
        if (seat->caller == caller) {
            seat->is_dismissed = 1;
            pthread_cond_signal(&seat->go);
        }
}

/* Lets the next one go on, once nobody does and everybody stands. */
static void hand_on(struct turns *turns) {
    struct seat *seat;
    if (turns->is_over || !turns->is_open || turns->has_baton || turns->chosen) return;
    if (turns->standing < turns->expected(turns)) return;
    seat = turns->choose(turns);
    if (turns->is_over) return;
    turns->chosen = seat;
    if (seat) pthread_cond_signal(&seat->go);
}

void turns_pass(struct turns *turns) {
    if (turns_is_mine(turns)) turns->has_baton = 0;
    hand_on(turns);
    pthread_cond_broadcast(&turns->changed);
}

int turns_stand(struct turns *turns, uint32_t caller, int is_asleep) {
    struct seat seat = {.caller = caller, .is_asleep = is_asleep};
    int status;
    if (turns->is_over) return -ECANCELED;
    if (pthread_cond_init(&seat.go, NULL) != 0) return -ENOMEM;
    if (!sit(turns, &seat)) {
        pthread_cond_destroy(&seat.go);
        return -EBUSY;
    }
    turns_pass(turns);
    while (turns->chosen != &seat && !seat.is_dismissed) pthread_cond_wait(&seat.go, &turns->kernel->lock);
    status = seat.is_dismissed ? -ECANCELED : seat.status;
    if (turns->chosen == &seat) turns->chosen = NULL;
    turns->has_baton = 1;
    turns->baton = pthread_self();
    rise(turns, &seat);
    pthread_cond_destroy(&seat.go);
    return status;
}

/* ---- by a seed ---- */

/* Whether the clock has not to go for this one to go on. */
static int is_ready(const struct turns *turns, const struct seat *seat) {
    return !seat->is_asleep || seat->status != 0 || ep_is_marked(&turns->kernel->handle, seat->caller) == 1;
}

static uint64_t count_ready(const struct turns *turns) {
    uint64_t count = 0;
    for (const struct seat *seat = turns->seats; seat; seat = seat->next) count += (uint64_t)is_ready(turns, seat);
    return count;
}

/* Moves the clock, or ends each wait with -EDEADLK, until somebody can go on. */
static uint64_t wake_somebody(struct turns *turns) {
    uint64_t count;
    while ((count = count_ready(turns)) == 0) {
        struct nippersage_task sleeper = {turns->kernel, turns->seats->caller, 1};
        int64_t result = 0;
        if (!kernel_go_on(sleeper, &result)) {
            kernel_end_waits(turns->kernel);
            result = -EDEADLK;
        }
        if (result < 0)
            for (struct seat *seat = turns->seats; seat; seat = seat->next) seat->status = (int)result;
    }
    return count;
}

static struct seat *choose_by_seed(struct turns *turns) {
    uint64_t count, which;
    if (!turns->seats) return NULL;
    count = wake_somebody(turns);
    which = turns_chance(&turns->chance) % count;
    for (struct seat *seat = turns->seats; seat; seat = seat->next)
        if (is_ready(turns, seat) && which-- == 0) return seat;
    return NULL;
}

/* As many as nippersage_tasks said; whoever is beyond that number is heard, too. */
static int expected_by_seed(struct turns *turns) { return turns->kernel->tasks > 0 ? turns->kernel->tasks : 1; }

int nippersage_take_turns(struct nippersage_kernel *kernel, uint64_t seed) {
    struct turns *turns;
    int status = 0;
    if (!kernel) return -EINVAL;
    turns = malloc(sizeof *turns);
    if (!turns || turns_init(turns, kernel) < 0) {
        free(turns);
        return -ENOMEM;
    }
    turns->is_open = 1;
    turns->expected = expected_by_seed;
    turns->choose = choose_by_seed;
    turns->chance = seed;
    pthread_mutex_lock(&kernel->lock);
    if (kernel->turns || kernel->order || kernel->tasks > 0 || kernel->asleep > 0) status = -EBUSY;
    if (status == 0) kernel->turns = turns;
    pthread_mutex_unlock(&kernel->lock);
    if (status < 0) {
        turns_free(turns);
        free(turns);
    }
    return status;
}
