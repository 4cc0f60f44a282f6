/* One order: the calls that are made in it, and whose turn is next. */
#include "orders.h"

#include <errno.h>
#include <inttypes.h>
#include <string.h>

int order_is_by_turn(const struct order *order) { return order->phase == IN_TASKS && order->is_by_turn; }

int order_is_asleep(const struct order *order, struct nippersage_task task) {
    return order_is_by_turn(order) && task.caller > 0 && task.caller <= (uint32_t)order->search->names.count &&
           has(order->parked, (int)task.caller - 1);
}

/* Keeps what is wrong with the program, if nothing was before. */
static struct text *fault(struct order *order, int kind) {
    static struct text nobody_reads;
    if (order->fault->kind) {
        nobody_reads.length = 0;
        return &nobody_reads;
    }
    order->fault->kind = kind;
    return &order->fault->text;
}

/* ---- calls ---- */

static void step_given(struct step *step, const void *bytes, size_t count) {
    step->given_length = count;
    if (!bytes || count == 0) return;
    step->given_hash = hash_of(bytes, count);
    memcpy(step->given, bytes, shown_of(count));
}

/* A call as it is to be made, or was made. */
static struct step step_of(int number, const struct exchange *x) {
    struct step step = {.number = number, .request = x->request};
    step_given(&step, x->given, x->given_length);
    return step;
}

static void text_call_of(struct text *text, const struct exchange *x) {
    struct step step = step_of(0, x);
    text_call(text, &step);
}

static int no_task(struct order *order, struct nippersage_task task) {
    text_add(fault(order, NIPPERSAGE_BAD_TASK),
             "a thread that is no task made a call as caller %" PRIu32 " while tasks take turns", task.caller);
    return -EPERM;
}

static int another_caller(struct order *order, struct nippersage_task task) {
    text_add(fault(order, NIPPERSAGE_BAD_TASK), "a call was made as caller %" PRIu32 " in a turn of %s, which is caller %d",
             task.caller, name_of(&order->search->names, order->going), order->going + 1);
    return -EPERM;
}

static int is_caller_of(const struct order *order, struct nippersage_task task) {
    return order->going != NOBODY && task.caller == (uint32_t)order->going + 1;
}

int order_may_stand(struct order *order, struct nippersage_task task, int is_going) {
    if (!is_going) return no_task(order, task);
    return is_caller_of(order, task) ? 0 : another_caller(order, task);
}

static int second_call(struct order *order, const struct exchange *x) {
    struct text *text = fault(order, NIPPERSAGE_BAD_TASK);
    text_add(text, "the task %s made a second call in one turn: ", name_of(&order->search->names, order->going));
    text_call_of(text, x);
    return -EPERM;
}

int order_may_call(struct order *order, struct nippersage_task task, const struct exchange *x) {
    if (order->phase != IN_TASKS || order->going == order->search->names.count) return 0;
    if (order->is_by_turn && !pthread_equal(order->owner, pthread_self())) return no_task(order, task);
    if (!is_caller_of(order, task)) return another_caller(order, task);
    if (order->is_by_turn && order->calls > 0) return second_call(order, x);
    return 0;
}

static int keep_reports(struct order *order, struct step *step) {
    struct steps *steps = order->now;
    step->reports = steps->reports_count;
    for (size_t i = 0; i < (size_t)step->result; i++) {
        if (!has_place((void **)&steps->reports, steps->reports_count, &steps->reports_room, sizeof *steps->reports))
            return -ENOMEM;
        steps->reports[steps->reports_count++] = order->kernel->reports[i];
    }
    return 0;
}

static void text_step_of(struct text *text, const struct order *order, const struct steps *steps, size_t place) {
    if (place >= steps->count) {
        text_add(text, "the end of the order");
        return;
    }
    text_call(text, &steps->all[place]);
    text_add(text, " of %s", name_of(&order->search->names, steps->all[place].number));
}

static void differs(struct order *order, size_t place) {
    struct text *text = fault(order, NIPPERSAGE_NOT_THE_SAME);
    int turn = 1;
    for (size_t i = 0; i < place && i < order->now->count; i++) turn += order->now->all[i].number != SETUP;
    text_add(text, "not the same again: in turn %d ", turn);
    text_step_of(text, order, order->now, place);
    text_add(text, ", where it was ");
    text_step_of(text, order, order->before, place);
    text_add(text, ", after the same turns. A task depends on something else than the kernel's answers: time, chance, "
                   "addresses, an earlier order");
    order->compares = 0;
}

/* Compares a step with that of the order before. Another task's turn is another order. Setup and the tasks' own calls
 * have to come again. */
static void compare(struct order *order, size_t place) {
    const struct step *now = &order->now->all[place], *before;
    if (!order->compares) return;
    if (place >= order->before->count) {
        differs(order, place);
        return;
    }
    before = &order->before->all[place];
    if (is_same_call(now, before)) return;
    if (now->number == before->number || now->number == SETUP || before->number == SETUP)
        differs(order, place);
    else
        order->compares = 0;
}

void order_look_at_end(struct order *order) {
    if (order->compares && order->now->count < order->before->count) differs(order, order->now->count);
}

static void note_parked(struct order *order, const struct step *step) {
    if (step->number < 0) return;
    if (step->request.event == EP_WAIT && step->result == EP_PARKED) order->parked |= set_of(step->number);
    if (step->request.event == EP_RESUME && step->result >= 0) order->parked &= ~set_of(step->number);
}

void order_starves(struct order *order) { order->lacks |= order->search->options.outcomes != 0; }

void order_note(struct order *order, struct nippersage_task task, const struct exchange *x, int64_t result) {
    int is_wait = x->request.event == EP_WAIT || x->request.event == EP_RESUME;
    struct step step;
    (void)task;
    if (result == -ENOMEM) order_starves(order);
    if (order->phase == AT_END) return;
    step = step_of(order->phase == IN_SETUP ? SETUP : order->going, x);
    step.result = result;
    if (result >= 0) {
        step.first = x->reply.first;
        step.second = x->reply.second;
        step.value = x->reply.value;
        step.interval = x->reply.interval;
        if (answer_of(&step) == BYTES) memcpy(step.got, x->bytes, shown_of((uint64_t)result));
    }
    if ((is_wait && result >= 0 && keep_reports(order, &step) < 0) || steps_put(order->now, &step) < 0) {
        order->lacks = 1;
        return;
    }
    order->calls++;
    note_parked(order, &step);
    compare(order, order->now->count - 1);
}

int order_share(struct order *order, struct nippersage_task task, const char *what) {
    struct exchange x = {.given = what, .given_length = strlen(what)};
    int status;
    x.request.pid = 1;
    status = order_may_call(order, task, &x);
    if (status == 0) order_note(order, task, &x, 0);
    return status;
}

/* ---- turns ---- */

static numbers ready_of(const struct order *order) {
    struct ep_handle *handle = &order->kernel->handle;
    int clock = order->search->names.count;
    numbers ready = (set_of(clock) - 1) & ~order->done;
    uint64_t moment;
    for (numbers rest = ready & order->parked; rest; rest &= rest - 1)
        if (ep_is_marked(handle, (uint32_t)first_of(rest) + 1) != 1) ready &= ~set_of(first_of(rest));
    if ((ready == 0 || order->search->options.clock_any) && ep_next_moment(handle, &moment) == 1) ready |= set_of(clock);
    return ready;
}

/* Counts for how many turns each task could have gone on and didn't. For a quarter of all is unfair. */
static void pass_over(struct order *order, numbers ready, int who) {
    uint32_t most = order->search->options.most;
    for (int i = 0; i < order->search->names.count; i++) {
        order->passed_over[i] = has(ready, i) && i != who ? order->passed_over[i] + 1 : 0;
        order->is_unfair |= order->passed_over[i] * 4ULL >= most && order->passed_over[i] > 0;
    }
}

static void text_ready(struct text *text, const struct order *order, numbers ready) {
    for (numbers rest = ready; rest; rest &= rest - 1)
        text_add(text, "%s%s", rest == ready ? "" : ", ", name_of(&order->search->names, first_of(rest)));
}

static const char *why_not(const struct order *order, int who) {
    if (who == NOBODY || who == order->search->names.count) return "can't";
    return has(order->done, who) ? "has come to its end" : "sleeps in a wait that nothing has ended";
}

static void cannot_go(struct order *order, numbers ready, int who) {
    size_t turn = order->turns.count + 1;
    const char *name = who == NOBODY ? "a task" : name_of(&order->search->names, who);
    struct text *text = fault(order, order->ways->is_foreign ? NIPPERSAGE_BAD_SCHEDULE : NIPPERSAGE_NOT_THE_SAME);
    if (!order->ways->is_foreign) {
        text_add(text, "not the same again: in turn %zu %s could go on before, and now %s", turn, name, why_not(order, who));
    } else if (who == NOBODY) {
        text_add(text, "the schedule ends before turn %zu, and ", turn);
        text_ready(text, order, ready);
        text_add(text, " can go on; write .. at its end");
    } else {
        text_add(text, "turn %zu of the schedule is one of %s, which %s", turn, name, why_not(order, who));
    }
}

/* Whose turn it is of those that can go on, or NOBODY. */
static int choose(struct order *order, numbers ready) {
    int last = order->turns.count > 0 ? order->turns.all[order->turns.count - 1] : NOBODY;
    int who = ways_choose(order->ways, ready, last);
    order->lacks |= order->ways->lacks;
    if (order->lacks) return NOBODY;
    if (!has(ready, who)) {
        cannot_go(order, ready, who);
        return NOBODY;
    }
    if (turns_put(&order->turns, who) < 0) {
        order->lacks = 1;
        return NOBODY;
    }
    if (who != goes_by_itself(ready, last, order->search->names.count)) order->chosen = order->turns.count;
    if (order->turns.count * 2 >= order->search->options.most) pass_over(order, ready, who);
    return who;
}

static void tick(struct order *order) {
    struct nippersage_task nobody = {order->kernel, 0, 1};
    int64_t result;
    kernel_go_on(nobody, &result);
}

int order_next(struct order *order) {
    int clock = order->search->names.count;
    while (!order->fault->kind && !order->lacks && order->failed == NOBODY) {
        numbers ready = ready_of(order);
        if (ready == 0) return NOBODY;
        if (order->turns.count >= order->search->options.most) {
            order->is_cut = 1;
            return NOBODY;
        }
        order->going = choose(order, ready);
        order->calls = 0;
        if (order->going != clock) return order->going;
        tick(order);
    }
    return NOBODY;
}
