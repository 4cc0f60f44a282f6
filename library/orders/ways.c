/* Which of those that can go on goes: the ways of choosing an order after the other. They are those of the package for
 * Python, and make the same orders one after another, but for chance. */
#include "orders.h"
#include "../turns.h"

#include <stdlib.h>
#include <string.h>

int goes_by_itself(numbers ready, int last, int clock) {
    return last != clock && has(ready, last) ? last : first_of(ready);
}

/* Whose turn would be a pre-emption: whoever went last could go on, or a task could and the clock goes. */
static numbers pre_emptions(numbers ready, int last, int clock) {
    if (last != clock && has(ready, last)) return ready & ~set_of(last);
    return count_of(ready) > 1 ? ready & set_of(clock) : 0;
}

void ways_open(struct ways *ways, int how, int clock) {
    *ways = (struct ways){.how = how, .clock = clock, .most = -1, .is_whole = 1, .which = NOBODY, .longest = 1};
}

void ways_given(struct ways *ways, const uint8_t *turns, size_t count, int is_open, int fills, int is_foreign) {
    ways->given = turns;
    ways->given_count = ways->given_left = count;
    ways->is_open = is_open;
    ways->fills = fills;
    ways->is_foreign = is_foreign;
}

/* ---- a path of choices ---- */

static int path_put(struct ways *ways, numbers left, int who) {
    struct path *path = &ways->path;
    if (!has_place((void **)&path->all, path->count, &path->room, sizeof *path->all)) {
        ways->lacks = 1;
        return NOBODY;
    }
    path->all[path->count++] = (struct choice){left & ~set_of(who), who};
    return who;
}

/* Goes on to the next path of the tree: another way at the last choice that has one left. 0 behind the last path. */
static int path_next(struct path *path) {
    while (path->count > 0) {
        struct choice *last = &path->all[path->count - 1];
        if (last->left != 0) {
            last->who = first_of(last->left);
            last->left &= last->left - 1;
            return 1;
        }
        path->count--;
    }
    return 0;
}

/* ---- every order ---- */

static int choose_every(struct ways *ways, numbers ready, int last) {
    if (ways->at < ways->path.count) return ways->path.all[ways->at++].who;
    ways->at++;
    return path_put(ways, ready, goes_by_itself(ready, last, ways->clock));
}

/* ---- rising bounds ---- */

static void forget(struct kept_list *list) {
    for (size_t i = 0; i < list->count; i++) free(list->all[i].turns);
    list->count = 0;
}

/* Goes on to the next pre-emption behind the starts of this bound. 0 if there is none left. */
static int next_start(struct ways *ways) {
    for (; ways->start < ways->starts.count; ways->start++, ways->start_place = 0, ways->start_which = 0) {
        const struct kept *kept = &ways->starts.all[ways->start];
        if (ways->start_place < kept->new_from) ways->start_place = kept->new_from;
        for (; ways->start_place < kept->count; ways->start_place++, ways->start_which = 0)
            if (ways->start_which < kept->left[ways->start_place]) {
                ways->prefix = kept->turns;
                ways->prefix_count = ways->start_place;
                ways->which = ways->start_which++;
                return 1;
            }
    }
    return 0;
}

/* Goes on to the next bound. 0 if no order is left. */
static int next_bound(struct ways *ways) {
    struct kept_list done = ways->starts;
    if (ways->kept.count == 0 || ways->bound == ways->most) return 0;
    ways->starts = ways->kept;
    forget(&done);
    ways->kept = done;
    ways->start = ways->start_place = 0;
    ways->start_which = 0;
    ways->is_whole = 1;
    ways->bound++;
    return 1;
}

static size_t first_free(const struct ways *ways) { return ways->prefix_count + (ways->which != NOBODY); }

static int begin_rising(struct ways *ways) {
    ways->left.count = 0;
    if (!ways->has_begun) {
        ways->has_begun = 1;
        return 1;
    }
    if (path_next(&ways->path)) {
        ways->new_from = first_free(ways) + ways->path.count;
        return 1;
    }
    while (!next_start(ways))
        if (!next_bound(ways)) return 0;
    ways->new_from = first_free(ways);
    return 1;
}

/* The place-th of a set. */
static int of_set(numbers set, int place) {
    for (; place > 0; place--) set &= set - 1;
    return set ? first_of(set) : NOBODY;
}

static int choose_rising(struct ways *ways, numbers ready, int last) {
    size_t at = ways->left.count;
    numbers dear = pre_emptions(ready, last, ways->clock);
    if (turns_put(&ways->left, count_of(dear)) < 0) {
        ways->lacks = 1;
        return NOBODY;
    }
    if (at < ways->prefix_count) return ways->prefix[at];
    if (at == ways->prefix_count && ways->which != NOBODY) return of_set(dear, ways->which);
    at -= first_free(ways);
    if (at < ways->path.count) return ways->path.all[at].who;
    return path_put(ways, ready & ~dear, first_of(ready & ~dear));
}

/* Keeps an order in which a pre-emption more was possible, for the next bound. */
static void end_rising(struct ways *ways, const uint8_t *turns, size_t count) {
    struct kept_list *list = &ways->kept;
    struct kept kept = {.count = count, .new_from = ways->new_from};
    size_t possible = 0;
    for (size_t i = ways->new_from; i < ways->left.count; i++) possible += ways->left.all[i];
    if (possible == 0) return;
    ways->is_whole = 0;
    if (ways->bound == ways->most) return;
    kept.turns = malloc(2 * count);
    if (!kept.turns || !has_place((void **)&list->all, list->count, &list->room, sizeof *list->all)) {
        free(kept.turns);
        ways->lacks = 1;
        return;
    }
    kept.left = kept.turns + count;
    memcpy(kept.turns, turns, count);
    memcpy(kept.left, ways->left.all, count);
    list->all[list->count++] = kept;
}

/* ---- by chance ---- */

/* The n-th order depends on the seed and n only. */
static void begin_chance(struct ways *ways) {
    uint64_t state = ways->seed, first = turns_chance(&state);
    ways->chance = first ^ (ways->run++ * UINT64_C(0x9e3779b97f4a7c15));
    turns_chance(&ways->chance);
}

static int choose_random(struct ways *ways, numbers ready) {
    return of_set(ready, (int)(turns_chance(&ways->chance) % (uint64_t)count_of(ready)));
}

static double fraction(struct ways *ways) { return (double)(turns_chance(&ways->chance) >> 11) / 9007199254740992.0; }

static int compare_places(const void *one, const void *other) {
    size_t a = *(const size_t *)one, b = *(const size_t *)other;
    return (a > b) - (a < b);
}

/* Priorities by chance: the highest that can go on goes. At depth - 1 turns whoever would go falls below all. The clock
 * begins below each task. Burckhardt and others, 2010: of n tasks and k turns, a fault that takes `depth` such choices is
 * found in one of n * k^(depth - 1) orders at least. */
static int begin_pct(struct ways *ways) {
    size_t falls = (size_t)ways->depth - 1;
    begin_chance(ways);
    if (falls > 0 && !ways->falls) ways->falls = malloc(falls * sizeof *ways->falls);
    if (falls > 0 && !ways->falls) {
        ways->lacks = 1;
        return 0;
    }
    for (int i = 0; i < ways->clock; i++) ways->high[i] = 1 + fraction(ways);
    ways->high[ways->clock] = fraction(ways);
    for (size_t i = 0; i < falls; i++) ways->falls[i] = turns_chance(&ways->chance) % ways->longest;
    if (falls > 0) qsort(ways->falls, falls, sizeof *ways->falls, compare_places);
    ways->turn = ways->fallen = 0;
    return 1;
}

static int highest(const struct ways *ways, numbers ready) {
    int best = first_of(ready);
    for (numbers rest = ready; rest; rest &= rest - 1)
        if (ways->high[first_of(rest)] > ways->high[best]) best = first_of(rest);
    return best;
}

static double lowest(const struct ways *ways) {
    double low = ways->high[0];
    for (int i = 1; i <= ways->clock; i++) low = ways->high[i] < low ? ways->high[i] : low;
    return low;
}

static int choose_pct(struct ways *ways, numbers ready) {
    int best = highest(ways, ready);
    while (ways->fallen + 1 < (size_t)ways->depth && ways->falls[ways->fallen] <= ways->turn) {
        ways->fallen++;
        ways->high[best] = lowest(ways) - 1;
        best = highest(ways, ready);
    }
    ways->turn++;
    return best;
}

/* ---- these turns ---- */

static int choose_given(struct ways *ways, numbers ready, int last) {
    while (ways->given_left > 0) {
        int who = ways->given[ways->given_count - ways->given_left];
        ways->given_left--;
        if (has(ready, who) || !ways->fills) return who;
    }
    return ways->is_open || ways->fills ? goes_by_itself(ready, last, ways->clock) : NOBODY;
}

/* ---- all of them ---- */

int ways_begin(struct ways *ways) {
    switch (ways->how) {
    case NIPPERSAGE_EVERY:
        ways->at = 0;
        if (ways->has_begun) return path_next(&ways->path);
        return ways->has_begun = 1;
    case NIPPERSAGE_RANDOM: begin_chance(ways); return 1;
    case NIPPERSAGE_PCT: return begin_pct(ways);
    case BY_TURNS: ways->given_left = ways->given_count; return 1;
    default: return begin_rising(ways);
    }
}

int ways_choose(struct ways *ways, numbers ready, int last) {
    switch (ways->how) {
    case NIPPERSAGE_EVERY: return choose_every(ways, ready, last);
    case NIPPERSAGE_RANDOM: return choose_random(ways, ready);
    case NIPPERSAGE_PCT: return choose_pct(ways, ready);
    case BY_TURNS: return choose_given(ways, ready, last);
    default: return choose_rising(ways, ready, last);
    }
}

void ways_end(struct ways *ways, const uint8_t *turns, size_t count) {
    if (ways->how == NIPPERSAGE_PCT && count > ways->longest) ways->longest = count;
    if (ways->how == NIPPERSAGE_RISING) end_rising(ways, turns, count);
}

void ways_free(struct ways *ways) {
    forget(&ways->kept);
    forget(&ways->starts);
    free(ways->kept.all);
    free(ways->starts.all);
    free(ways->path.all);
    free(ways->left.all);
    free(ways->falls);
}
