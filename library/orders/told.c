/* What a search tells: the failure with its calls, and what was covered. */
#include "orders.h"

#include <errno.h>
#include <inttypes.h>

/* A schedule of more columns is told by its beginning, if the rest goes by itself. */
#define LONG 100
/* So many calls of a long order are shown at its beginning, and at its end. */
#define FIRST 20
#define LAST 30
/* No call takes more columns before its answer. */
#define WIDEST 44

void text_order(struct text *text, const struct search *search, const uint8_t *turns, size_t count, size_t chosen) {
    struct text whole = {0}, start = {0};
    const struct text *told = &whole;
    text_schedule(&whole, &search->names, turns, count, 0);
    text_schedule(&start, &search->names, turns, chosen, 1);
    if (whole.length > LONG && start.length < whole.length) told = &start;
    text_add(text, "%s", told->bytes ? told->bytes : "");
    text->lacks |= whole.lacks | start.lacks;
    text_clear(&whole);
    text_clear(&start);
}

static size_t wider(size_t wide, size_t length) { return length > wide ? length : wide; }

static size_t length_of_call(const struct step *step) {
    struct text call = {0};
    size_t length;
    text_call(&call, step);
    length = call.length;
    text_clear(&call);
    return length;
}

/* A line for each call: its turn, who made it, the call and its answer. */
static void text_step(struct text *text, const struct search *search, size_t place, int turn, size_t name_room,
                      size_t call_room) {
    const struct steps *steps = search->order.now;
    const struct step *step = &steps->all[place];
    size_t at;
    if (step->number == SETUP)
        text_add(text, "\n        ");
    else
        text_add(text, "\n  %4d  ", turn);
    at = text->length;
    text_add(text, "%s", name_of(&search->names, step->number));
    text_fill(text, at, name_room + 2);
    at = text->length;
    text_call(text, step);
    text_fill(text, at, call_room);
    text_add(text, "  ");
    text_answer(text, steps, step);
    while (!text->lacks && text->length > 0 && text->bytes[text->length - 1] == ' ') text->bytes[--text->length] = 0;
}

static void text_steps(struct text *text, const struct search *search) {
    const struct steps *steps = search->order.now;
    size_t name_room = 0, call_room = 0;
    int turn = 0;
    for (size_t i = 0; i < steps->count; i++) {
        const char *name = name_of(&search->names, steps->all[i].number);
        size_t length = 0;
        while (name[length] != 0) length++;
        name_room = wider(name_room, length);
        call_room = wider(call_room, length_of_call(&steps->all[i]));
    }
    if (call_room > WIDEST) call_room = WIDEST;
    for (size_t i = 0; i < steps->count; i++) {
        turn += steps->all[i].number != SETUP;
        if (steps->count > FIRST + LAST && i == FIRST) {
            text_add(text, "\n        .. ");
            text_count(text, steps->count - FIRST - LAST, "call");
            text_add(text, " more");
        }
        if (steps->count <= FIRST + LAST || i < FIRST || i >= steps->count - LAST)
            text_step(text, search, i, turn, name_room, call_room);
    }
}

static void text_length(struct text *text, const uint8_t *turns, size_t count) {
    size_t switches = count_switches(turns, count);
    text_count(text, count, "turn");
    text_add(text, ", %zu switch%s", switches, switches == 1 ? "" : "es");
}

static void text_replay(struct text *text, const struct search *search, const char *order) {
    const struct nippersage_options *options = &search->options;
    const char *name = options->name ? options->name : "";
    text_add(text, "\n  replay    NIPPERSAGE_ORDER='%s%s%s' %s", name, *name ? ": " : "", order,
             options->replay ? options->replay : program_invocation_name);
}

void text_failure(struct text *text, struct search *search, struct verdict verdict, const struct turns_made *first,
                  size_t first_chosen, uint64_t shrunk) {
    const struct turns_made *turns = &search->order.turns;
    struct text order = {0};
    text_order(&order, search, turns->all, turns->count, search->order.chosen);
    text_verdict(text, search, verdict);
    text_add(text, "\n  order     %s\n            ", order.bytes ? order.bytes : "");
    text_length(text, turns->all, turns->count);
    if (first->count != turns->count || count_switches(first->all, first->count) != count_switches(turns->all, turns->count)) {
        text_add(text, "; found with ");
        text_length(text, first->all, first->count);
    }
    text_add(text, "; %s", search->how.bytes ? search->how.bytes : "");
    if (shrunk > 0) {
        text_add(text, "; ");
        text_count(text, shrunk, "order");
        text_add(text, " tried to make it small");
    }
    text_steps(text, search);
    text_asleep(text, search);
    text_replay(text, search, order.bytes ? order.bytes : "");
    text->lacks |= order.lacks;
    search->result->found = NULL;
    search->result->order = text_take(&order);
    text_order(&order, search, first->all, first->count, first_chosen);
    search->result->found = text_take(&order);
}

void text_covered(struct text *text, const struct nippersage_result *result, const struct text *parts) {
    if (result->is_whole) {
        text_add(text, "every order was tried: ");
        text_count(text, result->runs, "order");
    } else {
        text_add(text, "%s; not every order was tried", parts->bytes ? parts->bytes : "");
    }
    if (result->cut > 0) {
        text_add(text, "; ");
        text_count(text, result->cut, "order");
        text_add(text, " cut, as a task could go on for ever while another one waited to go");
    }
    text_add(text, "; ");
    text_count(text, result->failures, "failure");
    text_add(text, "; ");
    text_count(text, result->turns, "turn");
    text_add(text, ", %.2f s", result->seconds);
}
