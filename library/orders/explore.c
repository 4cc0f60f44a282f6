/* Tries orders of a program, and makes the first that fails small. */
#include "orders.h"

#include <errno.h>
#include <inttypes.h>
#include <stdlib.h>
#include <string.h>
#include <time.h>

/* The limits if none is told: seconds, and orders by chance. */
#define DEFAULT_SECONDS 4.0
#define DEFAULT_RUNS 1000
/* Behind the first failure by chance so many orders more are run, of so many turns in all, for so many failures. */
#define MORE_ORDERS 30
#define MORE_TURNS 10000
#define MORE_FAILURES 2

static double now_in_seconds(void) {
    struct timespec now;
    clock_gettime(CLOCK_MONOTONIC, &now);
    return (double)now.tv_sec + (double)now.tv_nsec / 1e9;
}

/* ---- what is given ---- */

static int refuse(struct search *search, int kind) {
    search->fault.kind = kind;
    return -EINVAL;
}

static int look_at_task(struct search *search, int number) {
    const struct nippersage_program_task *task = &search->program->tasks[number];
    struct text *wrong = &search->fault.text;
    if (!task->name || !is_name(task->name, strlen(task->name))) {
        text_add(wrong, "'%s' names no task: it has letters, digits and . _ -, and begins with a letter or _",
                 task->name ? task->name : "");
        return refuse(search, NIPPERSAGE_BAD_TASK);
    }
    for (int i = 0; i < number; i++)
        if (strcmp(search->name_list[i], task->name) == 0) {
            text_add(wrong, "two tasks have the name '%s'", task->name);
            return refuse(search, NIPPERSAGE_BAD_TASK);
        }
    if (!task->turn == !task->run) {
        text_add(wrong, "the task '%s' has one function, turn or run", task->name);
        return refuse(search, NIPPERSAGE_BAD_TASK);
    }
    search->name_list[number] = task->name;
    return 0;
}

static int look_at_program(struct search *search) {
    const struct nippersage_program *program = search->program;
    if (!program->setup || !program->tasks || program->count < 1 || program->count > MOST_TASKS) {
        text_add(&search->fault.text, "a program has a setup, and 1 to %d tasks", MOST_TASKS);
        return refuse(search, NIPPERSAGE_BAD_PROGRAM);
    }
    search->order.is_by_turn = 1;
    for (int i = 0; i < (int)program->count; i++) {
        int status = look_at_task(search, i);
        if (status < 0) return status;
        if (program->tasks[i].run) search->order.is_by_turn = 0;
    }
    search->names = (struct names){search->name_list, (int)program->count};
    return 0;
}

static int look_at_options(struct search *search) {
    const struct nippersage_options *options = &search->options;
    const char *wrong = NULL;
    if (options->how < NIPPERSAGE_BY_DEFAULT || options->how > NIPPERSAGE_PCT) wrong = "how is none of enum nippersage_how";
    if (options->bound < 0) wrong = "bound is 0 at least";
    if (options->bound > 0 && options->how != NIPPERSAGE_BOUND) wrong = "bound is for NIPPERSAGE_BOUND";
    if (options->depth < 0) wrong = "depth is 1 at least";
    if (!(options->seconds >= 0)) wrong = "seconds are more than 0";
    if (!(options->patience >= 0)) wrong = "patience is more than 0";
    if (!options->start != !options->join) wrong = "start and join come together";
    if (options->name && *options->name && !is_name(options->name, strlen(options->name)))
        wrong = "the name of an exploration has letters, digits and . _ -";
    if (!wrong) return 0;
    text_add(&search->fault.text, "%s", wrong);
    return refuse(search, NIPPERSAGE_BAD_OPTION);
}

static void fill_options(struct search *search) {
    struct nippersage_options *options = &search->options;
    if (options->depth == 0) options->depth = 3;
    if (options->most == 0) options->most = 2000;
    if (options->patience == 0) options->patience = 60;
    if (options->seconds > 0 || options->runs > 0) return;
    if (options->how == NIPPERSAGE_RANDOM || options->how == NIPPERSAGE_PCT) options->runs = DEFAULT_RUNS;
    if (options->how == NIPPERSAGE_BY_DEFAULT) options->seconds = DEFAULT_SECONDS;
}

/* The one order to run, by the option or else by the variable, if that means this exploration: 1 if there is one. */
static int read_order(struct search *search, struct schedule *schedule) {
    const char *text = search->options.order ? search->options.order : getenv("NIPPERSAGE_ORDER");
    const char *name = search->options.name ? search->options.name : "", *colon;
    int status;
    if (!text) return 0;
    colon = strchr(text, ':');
    if (colon) {
        const char *start = text + strspn(text, " "), *end = colon;
        while (end > start && end[-1] == ' ') end--;
        if (!is_name(start, (size_t)(end - start))) {
            text_add(&search->fault.text, "the schedule '%s' has no name before its colon", text);
            return refuse(search, NIPPERSAGE_BAD_SCHEDULE);
        }
        if (strlen(name) != (size_t)(end - start) || memcmp(name, start, strlen(name)) != 0) return 0;
        text = colon + 1;
    }
    status = schedule_read(schedule, text, &search->names, &search->fault.text);
    if (status == -EINVAL) refuse(search, NIPPERSAGE_BAD_SCHEDULE);
    return status < 0 ? status : 1;
}

/* ---- orders ---- */

/* A way of choosing orders, and the share of the limits at which the next one comes. */
struct part {
    int how, most;
    double share;
};

/* What a search has found. */
struct found {
    struct turns_made first;
    size_t first_chosen;
    struct verdict verdict;
    int is_by_chance;
    uint64_t run;
    struct text parts;
};

/* Counts the last order, and what it came to. 0 or -ENOMEM. */
static int count(struct search *search, struct verdict verdict) {
    struct nippersage_result *result = search->result;
    result->runs++;
    result->turns += search->order.turns.count;
    result->cut += (uint64_t)(search->order.is_cut && search->order.is_unfair);
    result->failures += verdict.kind != 0;
    return outcomes_add(search, verdict);
}

static int not_again(struct search *search) {
    if (!search->fault.kind)
        text_add(&search->fault.text,
                 "not the same again: an order failed once, and once it did not, by the same calls. What the check looks "
                 "at depends on something else than the kernel's answers");
    return refuse(search, NIPPERSAGE_NOT_THE_SAME);
}

/* Runs the first order once more, which has to come to the same. */
static int look_again(struct search *search, struct verdict verdict) {
    struct turns_made turns = {0};
    struct ways ways;
    struct verdict again;
    int status = turns_copy(&turns, search->order.turns.all, search->order.turns.count);
    if (status == 0) {
        ways_open(&ways, BY_TURNS, clock_of(search));
        ways_given(&ways, turns.all, turns.count, 1, 0, 0);
        status = run_order(search, &ways, &again);
    }
    free(turns.all);
    if (status == 0 && (again.kind == 0) != (verdict.kind == 0)) return not_again(search);
    return status;
}

static void text_how(struct search *search, const struct part *part) {
    struct text *how = &search->how;
    how->length = 0;
    text_add(how, "order ");
    text_number(how, search->result->runs);
    if (part->how == NIPPERSAGE_RISING) {
        text_add(how, ", of ");
        text_count(how, (uint64_t)search->ways.bound, "pre-emption");
    } else if (part->how == NIPPERSAGE_EVERY) {
        text_add(how, ", depth first");
    } else {
        text_add(how, ", by %s of seed %" PRIu64, part->how == NIPPERSAGE_PCT ? "pct" : "random", search->result->seed);
    }
}

static int keep_first(struct search *search, struct found *found, const struct part *part, struct verdict verdict) {
    found->verdict = verdict;
    found->first_chosen = search->order.chosen;
    found->is_by_chance = part->how == NIPPERSAGE_RANDOM || part->how == NIPPERSAGE_PCT;
    found->run = search->result->runs;
    text_how(search, part);
    return turns_copy(&found->first, search->order.turns.all, search->order.turns.count);
}

/* The limit that is reached, or nothing. */
static void text_limit(struct text *limit, const struct search *search, double share) {
    const struct nippersage_options *options = &search->options;
    uint64_t runs = (uint64_t)((double)options->runs * share + 0.999999);
    if (options->runs > 0 && search->result->runs >= runs) {
        text_add(limit, "limit of ");
        text_count(limit, runs, "order");
    } else if (options->seconds > 0 && now_in_seconds() - search->began >= options->seconds * share) {
        text_add(limit, "limit of %g s", options->seconds * share);
    }
}

/* Tells what a part came to. */
static void cover(struct search *search, struct found *found, const struct part *part, const struct text *limit,
                  uint64_t runs) {
    struct nippersage_result *result = search->result;
    struct text *text = &found->parts;
    int is_limited = limit->length > 0, bound = search->ways.bound - is_limited;
    text_add(text, "%s", text->length > 0 ? "; " : "");
    if (part->how == NIPPERSAGE_RISING) {
        result->bound = bound >= 0 ? bound : -1;
        result->is_whole = !is_limited && search->ways.is_whole && result->cut == 0;
        if (bound >= 0) {
            text_add(text, "every order of at most ");
            text_count(text, (uint64_t)bound, "pre-emption");
        } else {
            text_add(text, "rising bounds");
        }
    } else if (part->how == NIPPERSAGE_EVERY) {
        result->is_whole = !is_limited && result->cut == 0;
        text_add(text, "depth first");
    } else {
        text_add(text, "by %s, seed %" PRIu64, part->how == NIPPERSAGE_PCT ? "priorities" : "chance", result->seed);
    }
    text_add(text, ": ");
    text_count(text, runs, "order");
    if (is_limited) text_add(text, ", then the %s", limit->bytes);
}

/* Runs an order of this part. 0, or minus an error number. */
static int try_order(struct search *search, struct found *found, const struct part *part) {
    struct verdict verdict;
    int is_first = search->result->runs == 0, status = run_order(search, &search->ways, &verdict);
    if (status < 0) return status;
    ways_end(&search->ways, search->order.turns.all, search->order.turns.count);
    if (search->ways.lacks) return -ENOMEM;
    status = count(search, verdict);
    if (status == 0 && verdict.kind && !found->verdict.kind) status = keep_first(search, found, part, verdict);
    if (status == 0 && is_first) status = look_again(search, verdict);
    return status;
}

static int try_part(struct search *search, struct found *found, const struct part *part) {
    uint64_t runs = search->result->runs;
    struct text limit = {0};
    int status = 0;
    ways_open(&search->ways, part->how, clock_of(search));
    search->ways.most = part->most;
    search->ways.seed = search->options.seed;
    search->ways.depth = search->options.depth;
    while (status == 0 && limit.length == 0 && ways_begin(&search->ways)) {
        if (search->result->runs > 0) text_limit(&limit, search, part->share);
        if (limit.lacks) status = -ENOMEM;
        if (limit.lacks || limit.length > 0) break;
        status = try_order(search, found, part);
        if (found->verdict.kind && !search->options.goes_on) text_add(&limit, "first failure");
    }
    if (search->ways.lacks || limit.lacks) status = -ENOMEM;
    cover(search, found, part, &limit, search->result->runs - runs);
    ways_free(&search->ways);
    text_clear(&limit);
    return status;
}

static int try_parts(struct search *search, struct found *found) {
    int how = search->options.how, bound = how == NIPPERSAGE_BOUND ? search->options.bound : -1, status;
    struct part part = {how == NIPPERSAGE_BOUND || how == NIPPERSAGE_BY_DEFAULT ? NIPPERSAGE_RISING : how, bound, 1};
    if (how == NIPPERSAGE_BY_DEFAULT) part.share = 0.5;
    status = try_part(search, found, &part);
    if (status < 0 || how != NIPPERSAGE_BY_DEFAULT || search->result->is_whole) return status;
    if (found->verdict.kind && !search->options.goes_on) return 0;
    return try_part(search, found, &(struct part){NIPPERSAGE_RANDOM, -1, 1});
}

/* ---- making small ---- */

/* Runs the order of these turns, with what lacks filled. */
static int run_turns_again(struct search *search, const struct turns_made *turns, struct verdict *verdict) {
    struct ways ways;
    ways_open(&ways, BY_TURNS, clock_of(search));
    ways_given(&ways, turns->all, turns->count, 1, 1, 0);
    return run_order(search, &ways, verdict);
}

static int is_like(struct verdict one, struct verdict other) { return one.kind == other.kind && one.mark == other.mark; }

static int is_smaller(const struct turns_made *one, const struct turns_made *other) {
    if (one->count != other->count) return one->count < other->count;
    return count_switches(one->all, one->count) < count_switches(other->all, other->count);
}

/* Other orders by chance that fail in the same way are made small, too; the smallest is kept in `best`. */
static int try_others(struct search *search, const struct found *found, struct turns_made *best, uint64_t *tried) {
    struct turns_made other = {0};
    struct ways ways;
    struct verdict verdict;
    size_t turns = 0;
    int status = 0, failures = 0;
    ways_open(&ways, NIPPERSAGE_RANDOM, clock_of(search));
    ways.seed = search->options.seed;
    ways.run = found->run;
    for (int i = 0; i < MORE_ORDERS && status == 0 && failures < MORE_FAILURES && turns <= MORE_TURNS; i++) {
        ways_begin(&ways);
        status = run_order(search, &ways, &verdict);
        turns += search->order.turns.count;
        if (status < 0 || !is_like(verdict, found->verdict)) continue;
        failures++;
        status = turns_copy(&other, search->order.turns.all, search->order.turns.count);
        if (status == 0) status = shrink(search, &other, verdict, tried);
        if (status == 0 && is_smaller(&other, best)) status = turns_copy(best, other.all, other.count);
    }
    ways_free(&ways);
    free(other.all);
    return status;
}

/* Makes the first failure small, and tells of it. */
static int tell_failure(struct search *search, struct found *found, struct text *message, int is_given) {
    struct turns_made best = {0};
    struct verdict verdict = found->verdict;
    uint64_t tried = 0;
    int status = turns_copy(&best, found->first.all, found->first.count);
    if (status == 0 && !is_given) {
        status = run_turns_again(search, &best, &verdict);
        if (status == 0 && !is_like(verdict, found->verdict)) status = not_again(search);
        if (status == 0) status = shrink(search, &best, verdict, &tried);
        if (status == 0 && found->is_by_chance) status = try_others(search, found, &best, &tried);
    }
    if (status == 0) status = run_turns_again(search, &best, &verdict);
    if (status == 0 && !is_like(verdict, found->verdict)) status = not_again(search);
    free(best.all);
    if (status < 0) return status;
    search->result->kind = verdict.kind;
    text_failure(message, search, verdict, &found->first, found->first_chosen, tried);
    return 1;
}

/* ---- all of it ---- */

static int run_given(struct search *search, struct found *found, const struct schedule *schedule) {
    struct ways ways;
    struct verdict verdict;
    int status;
    ways_open(&ways, BY_TURNS, clock_of(search));
    ways_given(&ways, schedule->turns.all, schedule->turns.count, schedule->is_open, 0, 1);
    status = run_order(search, &ways, &verdict);
    if (status == 0) status = count(search, verdict);
    if (status < 0) return status;
    text_add(&found->parts, "one order, as it was given");
    text_add(&search->how, "as it was given");
    found->verdict = verdict;
    found->first_chosen = search->order.chosen;
    return turns_copy(&found->first, search->order.turns.all, search->order.turns.count);
}

/* Looks at what is given, and runs it: 0, 1 if an order failed, or minus an error number. */
static int run_search(struct search *search, struct found *found, struct text *message) {
    struct schedule schedule = {0};
    int is_given, status = look_at_program(search);
    if (status == 0) status = look_at_options(search);
    if (status < 0) return status;
    fill_options(search);
    is_given = status = read_order(search, &schedule);
    /* A debugger may stop a task for as long as somebody looks. */
    if (is_given == 1) search->options.patience = 1e9;
    if (status >= 0) status = is_given ? run_given(search, found, &schedule) : try_parts(search, found);
    free(schedule.turns.all);
    search->result->seconds = now_in_seconds() - search->began;
    if (status < 0) return status;
    if (found->verdict.kind) status = tell_failure(search, found, message, is_given);
    if (status < 0) return status;
    text_add(message, "%s", found->verdict.kind ? "\n  tried     " : "");
    text_covered(message, search->result, &found->parts);
    return message->lacks ? -ENOMEM : status;
}

static void free_search(struct search *search) {
    nippersage_free(search->order.kernel);
    for (int i = 0; i < 2; i++) steps_free(&search->steps[i]);
    tables_free(&search->tables);
    free(search->order.turns.all);
    text_clear(&search->order.failure);
    text_clear(&search->check);
    text_clear(&search->how);
    free(search);
}

int nippersage_explore(const struct nippersage_program *program, void *shared, const struct nippersage_options *options,
                       struct nippersage_result *result) {
    struct search *search;
    struct found found = {0};
    struct text message = {0};
    int status;
    if (!program || !result) return -EFAULT;
    *result = (struct nippersage_result){.bound = -1, .seed = options ? options->seed : 0};
    search = calloc(1, sizeof *search);
    if (!search) return -ENOMEM;
    search->program = program;
    search->shared = shared;
    search->result = result;
    search->began = now_in_seconds();
    if (options) search->options = *options;
    status = run_search(search, &found, &message);
    if (search->fault.kind) {
        result->kind = search->fault.kind;
        message.length = 0;
        text_add(&message, "%s", search->fault.text.bytes ? search->fault.text.bytes : "");
    } else if (status < 0) {
        message.length = 0;
        text_add(&message, "%s", error_name(-(int64_t)status));
    }
    /* What isn't the count of all that was run is no count. */
    if (status < 0) outcomes_drop(result);
    outcomes_free(&search->outcomes);
    result->message = text_take(&message);
    text_clear(&search->fault.text);
    if (!search->is_abandoned) free_search(search);
    free(found.first.all);
    text_clear(&found.parts);
    return status;
}

void nippersage_result_free(struct nippersage_result *result) {
    if (!result) return;
    free(result->message);
    free(result->order);
    free(result->found);
    result->message = result->order = result->found = NULL;
    outcomes_drop(result);
}

int nippersage_fail(struct nippersage_task task, const char *why) {
    struct order *order = task.kernel ? task.kernel->order : NULL;
    if (order && order->phase == IN_TASKS && order->failed == NOBODY) {
        order->blamed = order->going;
        order->failure.length = 0;
        text_add(&order->failure, "%s", why ? why : "");
    }
    return -EPROTO;
}
