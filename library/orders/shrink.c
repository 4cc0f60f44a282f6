/* Makes a failing order small: fewer turns, then fewer switches, that fail in the same way. */
#include "orders.h"

#include <errno.h>
#include <stdlib.h>
#include <string.h>

/* So many orders, and turns of these, are tried at most to make one small. */
#define MOST_ORDERS 300
#define MOST_STEPS 50000

/* A block of turns of one task. */
struct block {
    size_t start, count;
};

struct shrinking {
    struct search *search;
    struct verdict verdict;
    struct turns_made *best, trial;
    uint64_t tried, spent;
    int status;
};

static int is_smaller(const struct turns_made *one, const struct turns_made *other) {
    if (one->count != other->count) return one->count < other->count;
    return count_switches(one->all, one->count) < count_switches(other->all, other->count);
}

/* Runs the order of the trial's turns, in which turns that can't be are left out and others fill what lacks. Whether it
 * fails in the same way and is smaller; then it is the best. */
static int is_better(struct shrinking *it) {
    struct ways ways;
    struct verdict verdict;
    ways_open(&ways, BY_TURNS, clock_of(it->search));
    ways_given(&ways, it->trial.all, it->trial.count, 1, 1, 0);
    it->status = run_order(it->search, &ways, &verdict);
    it->tried++;
    it->spent += it->trial.count;
    if (it->status < 0 || verdict.kind != it->verdict.kind || verdict.mark != it->verdict.mark) return 0;
    if (!is_smaller(&it->search->order.turns, it->best)) return 0;
    it->status = turns_copy(it->best, it->search->order.turns.all, it->search->order.turns.count);
    return it->status == 0;
}

static int is_at_limit(const struct shrinking *it) {
    return it->status < 0 || it->tried == MOST_ORDERS || it->spent > MOST_STEPS;
}

static struct block block_at(const struct turns_made *turns, size_t place) {
    struct block block = {place, 1};
    while (block.start + block.count < turns->count && turns->all[block.start + block.count] == turns->all[place])
        block.count++;
    return block;
}

/* The best without these turns. */
static int try_without(struct shrinking *it, struct block block) {
    size_t rest = block.start + block.count;
    if (is_at_limit(it) || (it->status = turns_copy(&it->trial, it->best->all, it->best->count)) < 0) return 0;
    memmove(it->trial.all + block.start, it->trial.all + rest, it->trial.count - rest);
    it->trial.count -= block.count;
    return is_better(it);
}

/* The best with the later block of a task moved up to the earlier one, or the earlier one moved down. */
static int try_beside(struct shrinking *it, struct block early, struct block late, int is_up) {
    const uint8_t *from = it->best->all;
    size_t between = early.start + early.count, count = late.start - between;
    uint8_t *to;
    if (is_at_limit(it) || (it->status = turns_copy(&it->trial, from, it->best->count)) < 0) return 0;
    to = it->trial.all;
    if (is_up) {
        memcpy(to + between, from + late.start, late.count);
        memcpy(to + between + late.count, from + between, count);
    } else {
        memcpy(to + early.start, from + between, count);
        memcpy(to + early.start + count, from + early.start, early.count);
    }
    return is_better(it);
}

static int without_a_block(struct shrinking *it) {
    for (size_t i = 0; i < it->best->count;) {
        struct block block = block_at(it->best, i);
        if (try_without(it, block)) return 1;
        i += block.count;
    }
    return 0;
}

/* Each block beside each later one of its own task that isn't the next but one's neighbour already. */
static int with_blocks_joined(struct shrinking *it, struct block early) {
    size_t i = early.start + early.count;
    while (i < it->best->count) {
        struct block late = block_at(it->best, i);
        if (it->best->all[late.start] == it->best->all[early.start])
            for (int is_up = 1; is_up >= 0; is_up--)
                if (try_beside(it, early, late, is_up)) return 1;
        i += late.count;
    }
    return 0;
}

static int with_any_blocks_joined(struct shrinking *it) {
    for (size_t i = 0; i < it->best->count;) {
        struct block early = block_at(it->best, i);
        if (with_blocks_joined(it, early)) return 1;
        i += early.count;
    }
    return 0;
}

static int without_a_turn(struct shrinking *it) {
    for (size_t i = 0; i < it->best->count; i++)
        if (try_without(it, (struct block){i, 1})) return 1;
    return 0;
}

int shrink(struct search *search, struct turns_made *best, struct verdict verdict, uint64_t *tried) {
    struct shrinking it = {.search = search, .verdict = verdict, .best = best};
    while (!is_at_limit(&it) && (without_a_block(&it) || with_any_blocks_joined(&it) || without_a_turn(&it))) continue;
    *tried += it.tried;
    free(it.trial.all);
    return it.status;
}
