/* Whether an order failed, and why: who sleeps, at what, and what lies beside it. */
#include "orders.h"

#include <inttypes.h>

/* Data that somebody has to take. OUT mostly holds, and so says nothing. */
#define DATA (EPOLLIN | EPOLLRDHUP)

static int is_daemon(const struct search *search, int number) { return search->program->tasks[number].is_daemon; }

/* Whether the user lets somebody sleep beside the data of this registration. */
static int counts(const struct search *search, const struct watch *watch) {
    return !search->options.beside || search->options.beside(&watch->told, search->shared) != 0;
}

static int is_watch_of(const struct tables *tables, const struct watch *watch, const struct sleeping *at) {
    return watch->instance == at->file && tables_is_alive(tables, watch->file);
}

/* Whether the sleeper lies beside the data of this registration. */
static int is_lost(const struct search *search, const struct watch *watch, const struct sleeping *at) {
    return is_watch_of(&search->tables, watch, at) && (watch->told.shown & watch->told.events & DATA) != 0 &&
           counts(search, watch);
}

/* Whether a registration of the sleeper's instance is reportable, or any that the user lets count. */
static int has_watch(const struct search *search, const struct sleeping *at, int only_reportable) {
    const struct tables *tables = &search->tables;
    for (size_t i = 0; i < tables->watches_count; i++) {
        const struct watch *watch = &tables->watches[i];
        if (!is_watch_of(tables, watch, at)) continue;
        if (only_reportable ? watch->told.is_reportable : counts(search, watch)) return 1;
    }
    return 0;
}

/* Whether an instance would report, though nobody woke who sleeps there. Only EXCLUSIVE leaves it so. */
static int is_passed_over(const struct search *search, const struct sleeping *at) {
    return has_watch(search, at, 1) && has_watch(search, at, 0);
}

static int lies_beside(const struct search *search, int number) {
    const struct tables *tables = &search->tables;
    const struct sleeping *at = tables_sleeper(tables, number);
    if (!at || search->options.not_beside) return 0;
    for (size_t i = 0; i < tables->watches_count; i++)
        if (is_lost(search, &tables->watches[i], at)) return 1;
    return is_passed_over(search, at);
}

static numbers asleep_of(const struct search *search) {
    return (set_of(search->names.count) - 1) & ~search->order.done;
}

static struct verdict of_sleepers(struct search *search) {
    numbers asleep = asleep_of(search);
    int stuck = 0;
    if (asleep == 0) return (struct verdict){0, 0};
    tables_build(&search->tables, search->order.now);
    tables_ask(&search->tables, search->order.kernel);
    for (numbers rest = asleep; rest; rest &= rest - 1) {
        if (lies_beside(search, first_of(rest))) return (struct verdict){NIPPERSAGE_BESIDE, 0};
        stuck |= !is_daemon(search, first_of(rest));
    }
    return (struct verdict){stuck ? NIPPERSAGE_FOR_GOOD : 0, 0};
}

static struct verdict of_check(struct search *search) {
    const struct nippersage_program *program = search->program;
    const char *found = program->check ? program->check(search->order.kernel, search->shared) : NULL;
    if (!found) return (struct verdict){0, 0};
    search->check.length = 0;
    text_add(&search->check, "%s", found);
    return (struct verdict){NIPPERSAGE_CHECK, 0};
}

struct verdict judge(struct search *search) {
    struct order *order = &search->order;
    struct verdict verdict;
    if (order->failed != NOBODY) return (struct verdict){NIPPERSAGE_FAILED, order->failed};
    if (order->is_cut) return (struct verdict){order->is_unfair ? 0 : NIPPERSAGE_ENDLESS, 0};
    verdict = of_sleepers(search);
    return verdict.kind ? verdict : of_check(search);
}

/* ---- in words ---- */

static void text_file(struct text *text, const struct search *search, const struct watch *watch,
                      const struct sleeping *at) {
    const struct named *named;
    text_add(text, "fd %d", watch->fd);
    if (tables_has_name(&search->tables, at->pid, watch->fd, watch->file)) return;
    named = tables_name(&search->tables, watch->file, at->pid);
    if (!named)
        text_add(text, ", closed since,");
    else if (named->pid == at->pid)
        text_add(text, ", now fd %d,", named->fd);
    else
        text_add(text, ", now fd %d of process %" PRIu64 ",", named->fd, named->pid);
}

static void text_reported(struct text *text, const struct search *search, const struct watch *watch) {
    struct turn turn = turn_of(search->order.now, watch->told.reported_in);
    if (watch->told.reported_in == 0)
        text_add(text, ", never reported");
    else if (turn.number == SETUP)
        text_add(text, ", reported in setup");
    else
        text_add(text, ", reported to %s in turn %zu", name_of(&search->names, turn.number), turn.place);
}

static void text_watch(struct text *text, const struct search *search, const struct watch *watch,
                       const struct sleeping *at) {
    const struct nippersage_watch *told = &watch->told;
    text_file(text, search, watch, at);
    text_add(text, " shows ");
    if (told->shown != 0)
        text_bits(text, told->shown);
    else
        text_add(text, "nothing");
    text_add(text, ", registered ");
    text_bits(text, told->events);
    if (told->events & EPOLLONESHOT) text_add(text, told->is_armed ? ", armed" : ", not armed");
    if (told->events & (EPOLLET | EPOLLONESHOT)) text_reported(text, search, watch);
}

static void text_place(struct text *text, const struct search *search, const struct sleeping *at) {
    text_add(text, "%s at %d", name_of(&search->names, at->number), at->fd);
    if (at->pid != 1) text_add(text, " of process %" PRIu64, at->pid);
}

/* Who sleeps where, and what is watched there: all registrations, or those that are lost. */
static void text_sleeper(struct text *text, const struct search *search, const struct sleeping *at, int only_lost) {
    const char *between = ": ";
    text_place(text, search, at);
    for (size_t i = 0; i < search->tables.watches_count; i++) {
        const struct watch *watch = &search->tables.watches[i];
        if (only_lost ? !is_lost(search, watch, at) : !is_watch_of(&search->tables, watch, at)) continue;
        text_add(text, "%s", between);
        text_watch(text, search, watch, at);
        between = ", and ";
    }
    if (between[0] != ':') return;
    if (only_lost)
        text_add(text, ", which would report, and no event woke %s", name_of(&search->names, at->number));
    else
        text_add(text, ", which watches nothing");
}

static void text_sleepers(struct text *text, struct search *search, int kind) {
    const char *between = "";
    for (numbers rest = asleep_of(search); rest; rest &= rest - 1) {
        int number = first_of(rest), is_beside = kind == NIPPERSAGE_BESIDE;
        const struct sleeping *at = tables_sleeper(&search->tables, number);
        if (!at || (is_beside ? !lies_beside(search, number) : is_daemon(search, number))) continue;
        text_add(text, "%s", between);
        text_sleeper(text, search, at, is_beside);
        between = "; ";
    }
}

void text_verdict(struct text *text, struct search *search, struct verdict verdict) {
    switch (verdict.kind) {
    case NIPPERSAGE_FAILED:
        text_add(text, "%s failed: %s", name_of(&search->names, verdict.mark),
                 search->order.failure.bytes ? search->order.failure.bytes : "");
        break;
    case NIPPERSAGE_ENDLESS: text_add(text, "endless: %" PRIu32 " turns, and no end", search->options.most); break;
    case NIPPERSAGE_CHECK: text_add(text, "check: %s", search->check.bytes ? search->check.bytes : ""); break;
    default:
        text_add(text, verdict.kind == NIPPERSAGE_BESIDE ? "asleep beside data: " : "asleep for good: ");
        text_sleepers(text, search, verdict.kind);
    }
}

void text_asleep(struct text *text, struct search *search) {
    const struct order *order = &search->order;
    if (order->failed != NOBODY || order->is_cut) return;
    for (numbers rest = asleep_of(search); rest; rest &= rest - 1) {
        const struct sleeping *at = tables_sleeper(&search->tables, first_of(rest));
        if (!at) continue;
        text_add(text, "\n  asleep    ");
        text_sleeper(text, search, at, 0);
    }
}
