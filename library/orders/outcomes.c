/* What orders come to, and how many to the same: of each task the answers, and whether it came to its end; and the kind
 * of failure. Outcomes are the same here if the package for Python tells them by the same words. */
#include "orders.h"

#include <errno.h>
#include <stdlib.h>
#include <string.h>

/* The table of the first outcome has so many slots. */
#define FIRST_SLOTS 32

/* ---- an outcome as bytes: two are the same if their bytes are ---- */

/* What stands behind the answers of a task, beside the sorts of answers of enum answer. */
enum { CAME_TO_END = REPORTS + 1, SLEEPS };

/* A number by seven bits in a byte, the low ones first. As most are small, so are outcomes. */
static void put_number(struct text *bytes, uint64_t number) {
    uint8_t all[10];
    size_t count = 0;
    for (; number > 127; number >>= 7) all[count++] = (uint8_t)(number | 128);
    all[count++] = (uint8_t)number;
    text_put(bytes, all, count);
}

static void put_numbers(struct text *bytes, uint64_t first, uint64_t second) {
    put_number(bytes, first);
    put_number(bytes, second);
}

static void put_reports(struct text *bytes, const struct steps *steps, const struct step *step) {
    put_number(bytes, (uint64_t)step->result);
    for (size_t i = 0; i < (size_t)step->result; i++) {
        const struct ep_report *report = &steps->reports[step->reports + i];
        put_numbers(bytes, report->events, report->tag);
    }
}

/* An answer by its sort and its numbers. A resumption has that of its wait. */
static void put_answer(struct text *bytes, const struct steps *steps, const struct step *step) {
    enum answer sort = answer_of(step);
    if (sort == NOT_YET) return;
    put_number(bytes, sort);
    switch (sort) {
    case NOT_YET: case NOTHING: break;
    case AN_ERROR: put_number(bytes, (uint64_t)-step->result); break;
    case A_NUMBER: put_number(bytes, (uint64_t)step->result); break;
    case TWO_NUMBERS: put_numbers(bytes, (uint64_t)step->first, (uint64_t)step->second); break;
    case TWO_TIMES: put_numbers(bytes, step->value, step->interval); break;
    case BYTES:
        put_number(bytes, (uint64_t)step->result);
        text_put(bytes, step->got, shown_of((uint64_t)step->result));
        break;
    case A_NAME:
        put_number(bytes, (uint64_t)step->result);
        if (step->result == 1) put_numbers(bytes, (uint64_t)step->first, step->value);
        break;
    case REPORTS: put_reports(bytes, steps, step); break;
    }
}

/* What the last order came to. Calls of setup and of the clock are no task's. */
static void put_order(struct text *bytes, const struct search *search, struct verdict verdict) {
    const struct order *order = &search->order;
    for (int number = 0; number < search->names.count; number++) {
        for (size_t i = 0; i < order->now->count; i++)
            if (order->now->all[i].number == number) put_answer(bytes, order->now, &order->now->all[i]);
        put_number(bytes, has(order->done, number) ? CAME_TO_END : SLEEPS);
    }
    put_number(bytes, (uint64_t)verdict.kind);
}

/* ---- outcomes by their hashes ---- */

static int is_same(const struct known *one, const struct known *other) {
    return one->hash == other->hash && one->length == other->length &&
           memcmp(one->bytes, other->bytes, one->length) == 0;
}

/* The slot of an outcome: that which has its place, or the free one that is to have it. */
static size_t *slot_of(const struct outcomes *outcomes, const struct known *known) {
    size_t last = outcomes->slots_count - 1, at = (size_t)known->hash & last;
    while (outcomes->slots[at] != 0 && !is_same(&outcomes->all[outcomes->slots[at] - 1], known)) at = (at + 1) & last;
    return &outcomes->slots[at];
}

/* Sees to it that half of the slots stay free if an outcome more comes. 0 for want of memory. */
static int has_slots(struct outcomes *outcomes) {
    size_t count = outcomes->slots_count > 0 ? 2 * outcomes->slots_count : FIRST_SLOTS, *slots;
    if (2 * (outcomes->count + 1) <= outcomes->slots_count) return 1;
    slots = calloc(count, sizeof *slots);
    if (!slots) return 0;
    free(outcomes->slots);
    outcomes->slots = slots;
    outcomes->slots_count = count;
    for (size_t i = 0; i < outcomes->count; i++) *slot_of(outcomes, &outcomes->all[i]) = i + 1;
    return 1;
}

/* The schedule of the last order, or NULL for want of memory. */
static char *schedule_of(const struct search *search) {
    const struct turns_made *turns = &search->order.turns;
    struct text text = {0};
    text_order(&text, search, turns->all, turns->count, search->order.chosen);
    return text_take(&text);
}

/* Keeps an outcome that wasn't seen before, with a copy of its bytes. No order has come to it yet. */
static int keep(struct search *search, struct known known, int kind) {
    struct outcomes *outcomes = &search->outcomes;
    struct nippersage_result *result = search->result;
    struct nippersage_outcome told = {.kind = (enum nippersage_kind)kind, .order = schedule_of(search)};
    char *bytes = malloc(known.length);
    if (!told.order || !bytes || !has_place((void **)&outcomes->all, outcomes->count, &outcomes->room, sizeof known) ||
        !has_place((void **)&result->outcomes, outcomes->count, &outcomes->told_room, sizeof told)) {
        free(told.order);
        free(bytes);
        return -ENOMEM;
    }
    memcpy(bytes, known.bytes, known.length);
    known.bytes = bytes;
    outcomes->all[outcomes->count++] = known;
    result->outcomes[result->outcomes_count++] = told;
    return 0;
}

int outcomes_add(struct search *search, struct verdict verdict) {
    struct outcomes *outcomes = &search->outcomes;
    struct text *now = &outcomes->now;
    struct known known;
    size_t *slot;
    if (!search->options.outcomes) return 0;
    now->length = 0;
    put_order(now, search, verdict);
    if (now->lacks || !has_slots(outcomes)) return -ENOMEM;
    known = (struct known){hash_of(now->bytes, now->length), now->bytes, now->length};
    slot = slot_of(outcomes, &known);
    if (*slot == 0) {
        if (keep(search, known, verdict.kind) < 0) return -ENOMEM;
        *slot = outcomes->count;
    }
    search->result->outcomes[*slot - 1].runs++;
    return 0;
}

/* ---- their memory ---- */

void outcomes_free(struct outcomes *outcomes) {
    for (size_t i = 0; i < outcomes->count; i++) free(outcomes->all[i].bytes);
    free(outcomes->all);
    free(outcomes->slots);
    text_clear(&outcomes->now);
}

void outcomes_drop(struct nippersage_result *result) {
    for (size_t i = 0; i < result->outcomes_count; i++) free(result->outcomes[i].order);
    free(result->outcomes);
    result->outcomes = NULL;
    result->outcomes_count = 0;
}
