/* What the files of this folder share: orders of what tasks do, and what is told of them (docs/orders.md). A task is
 * known by its place, from 0; the clock's number stands behind them all. */
#ifndef NIPPERSAGE_ORDERS_H
#define NIPPERSAGE_ORDERS_H

#include "../kernel.h"

#include <stdarg.h>

enum {
    MOST_TASKS = 63, /* so that a set of them and the clock is one number */
    NOBODY = -1,     /* who went last before the first turn; whoever goes if nobody can be told */
    SETUP = -1,      /* whose a call is that was made in setup */
    SHOWN = 24       /* so many bytes of a read, a write or a name are shown */
};

/* A set of tasks, and of the clock. */
typedef uint64_t numbers;

static inline numbers set_of(int number) { return (numbers)1 << number; }
static inline int has(numbers set, int number) { return number >= 0 && (set >> number & 1) != 0; }
static inline int first_of(numbers set) { return __builtin_ctzll(set); }
static inline int count_of(numbers set) { return __builtin_popcountll(set); }

/* ---- texts and lists that grow ---- */

/* A text with a 0 behind it. `lacks` says that memory was wanting. */
struct text {
    char *bytes;
    size_t length, room;
    int lacks;
};

void text_add(struct text *text, const char *format, ...) __attribute__((format(printf, 2, 3)));
void text_put(struct text *text, const void *bytes, size_t count); /* bytes as they are, also if some are 0 */
void text_fill(struct text *text, size_t from, size_t columns); /* blanks until there are so many columns from there */
void text_clear(struct text *text);
/* The bytes of a text, which is then empty; NULL if memory was wanting. To be freed. */
char *text_take(struct text *text);
/* A number with commas, and one with a word, as `2,702 orders`. */
void text_number(struct text *text, uint64_t number);
void text_count(struct text *text, uint64_t count, const char *word);

/* Makes room for one more in a list of things of this size. 0 for want of memory. */
int has_place(void **list, size_t count, size_t *room, size_t size);

uint64_t hash_of(const void *bytes, size_t count);

/* Turns: who went, one after another. */
struct turns_made {
    uint8_t *all;
    size_t count, room;
};
int turns_put(struct turns_made *turns, int who);
int turns_copy(struct turns_made *to, const uint8_t *from, size_t count);

/* ---- calls that were made ---- */

/* A call of an order, with its answer. Event 0 is a turn without a call. */
struct step {
    int number; /* of the task or the clock, or SETUP */
    struct ep_request request;
    uint64_t given_length, given_hash; /* of the bytes of a write, or of a name */
    uint8_t given[SHOWN], got[SHOWN];
    int64_t result;
    int32_t first, second;
    uint64_t value, interval;
    size_t reports; /* where its reports begin */
};

struct steps {
    struct step *all;
    size_t count, room;
    struct ep_report *reports;
    size_t reports_count, reports_room;
};

int steps_put(struct steps *steps, const struct step *step);
int is_same_call(const struct step *one, const struct step *other);
void steps_free(struct steps *steps);

/* What the answer of a call is made of. NOT_YET is that of a wait which goes on. */
enum answer { NOT_YET, AN_ERROR, NOTHING, A_NUMBER, TWO_NUMBERS, TWO_TIMES, BYTES, A_NAME, REPORTS };
enum answer answer_of(const struct step *step);

/* So many bytes of a read or write are known: those at its beginning. */
static inline size_t shown_of(uint64_t count) { return count < SHOWN ? (size_t)count : SHOWN; }

void text_call(struct text *text, const struct step *step);
void text_answer(struct text *text, const struct steps *steps, const struct step *step);
void text_bits(struct text *text, uint32_t mask);
const char *error_name(int64_t number);

/* ---- schedules ---- */

struct names {
    const char *const *all; /* of the tasks */
    int count;
};

static inline const char *name_of(const struct names *names, int number) {
    return number == SETUP ? "setup" : number == names->count ? "+" : names->all[number];
}

/* A schedule that was read, and whether its rest is open. */
struct schedule {
    struct turns_made turns;
    int is_open;
};

int is_name(const char *name, size_t length);
void text_schedule(struct text *text, const struct names *names, const uint8_t *turns, size_t count, int is_open);
/* 0, -ENOMEM, or -EINVAL with what is wrong in `wrong`. */
int schedule_read(struct schedule *schedule, const char *text, const struct names *names, struct text *wrong);
size_t count_switches(const uint8_t *turns, size_t count);

/* ---- who goes ---- */

enum { BY_TURNS = 100 }; /* beside the ways of enum nippersage_how: the turns that are told */

/* A choice that was made, and what is left to be chosen there. */
struct choice {
    numbers left;
    int who;
};

struct path {
    struct choice *all;
    size_t count, room;
};

/* An order that was tried by rising bounds: its turns, how many pre-emptions were possible at each, and from where on
 * it is new. */
struct kept {
    uint8_t *turns, *left;
    size_t count, new_from;
};

struct kept_list {
    struct kept *all;
    size_t count, room;
};

struct ways {
    int how, clock;
    /* depth first, and the free choices of rising bounds */
    struct path path;
    size_t at;
    int has_begun;
    /* rising bounds */
    int most, bound; /* most is below 0 if there is none */
    int is_whole;
    struct kept_list kept, starts;
    size_t start, start_place;
    int start_which;
    const uint8_t *prefix;
    size_t prefix_count, new_from;
    int which; /* of the pre-emptions behind the prefix, or NOBODY */
    struct turns_made left;
    /* by chance */
    uint64_t seed, run, chance;
    int depth;
    size_t longest, turn, fallen;
    size_t *falls;
    double high[MOST_TASKS + 1];
    /* these turns */
    const uint8_t *given;
    size_t given_count, given_left;
    int is_open, fills, is_foreign;
    int lacks; /* whether memory was wanting */
};

/* Whoever goes if nothing is said: the last one, if that was a task, else the first; the clock is the last. */
int goes_by_itself(numbers ready, int last, int clock);
void ways_open(struct ways *ways, int how, int clock);
/* The turns that are told, from the first one on. */
void ways_given(struct ways *ways, const uint8_t *turns, size_t count, int is_open, int fills, int is_foreign);
int ways_begin(struct ways *ways); /* 0 if there is no order left */
int ways_choose(struct ways *ways, numbers ready, int last);
void ways_end(struct ways *ways, const uint8_t *turns, size_t count);
void ways_free(struct ways *ways);

/* ---- what is wrong ---- */

struct fault {
    int kind; /* of enum nippersage_kind, or 0 */
    struct text text;
};

/* ---- descriptors and registrations, by the calls that were made ---- */

struct named {
    uint64_t pid;
    int fd, file, is_cloexec;
};

/* A registration, and what the kernel tells of it at the end, if somebody sleeps there. */
struct watch {
    int instance, fd, file;
    struct nippersage_watch told;
};

struct sleeping {
    int number, file, fd;
    uint64_t pid;
};

struct tables {
    struct named *names;
    size_t names_count, names_room;
    struct watch *watches;
    size_t watches_count, watches_room;
    struct sleeping *asleep;
    size_t asleep_count, asleep_room;
    int files, lacks;
};

/* A turn by its place from 1 on, and whose it was; 0 is before the first one. */
struct turn {
    size_t place;
    int number;
};

void tables_build(struct tables *tables, const struct steps *steps);
const struct named *tables_name(const struct tables *tables, int file, uint64_t pid_first);
int tables_has_name(const struct tables *tables, uint64_t pid, int fd, int file);
int tables_is_alive(const struct tables *tables, int file);
const struct sleeping *tables_sleeper(const struct tables *tables, int number);
/* Asks the kernel about the registrations beside which tasks sleep. */
void tables_ask(struct tables *tables, struct nippersage_kernel *kernel);
/* The turn of an event, by its place in the history from 1 on. */
struct turn turn_of(const struct steps *steps, uint64_t record);
void tables_free(struct tables *tables);

/* ---- one order ---- */

enum phase { IN_SETUP, IN_TASKS, AT_END };

struct search;

struct order {
    struct search *search;
    struct nippersage_kernel *kernel;
    struct ways *ways;
    enum phase phase;
    int is_by_turn;              /* tasks are called back; else they are threads */
    pthread_t owner;
    int going;                   /* whose turn it is */
    int calls;                   /* how many of its calls were made in this turn */
    numbers done, parked;
    struct turns_made turns;
    size_t chosen;               /* behind so many turns each goes by itself */
    int is_cut, is_unfair;
    uint32_t passed_over[MOST_TASKS + 1];
    int failed, blamed;          /* the task that failed; the one that said why; or NOBODY */
    struct text failure;
    struct steps *now, *before;
    int compares;                /* whether the turns are still those of the order before */
    struct fault *fault;
    int lacks;
};

/* Before a call: 0, or minus an error number if nobody may make it now. */
int order_may_call(struct order *order, struct nippersage_task task, const struct exchange *x);
/* Behind a call, or behind a turn without one. */
void order_note(struct order *order, struct nippersage_task task, const struct exchange *x, int64_t result);
/* A call found no memory, so its answer isn't the kernel's. Where outcomes are counted, the search comes to -ENOMEM. */
void order_starves(struct order *order);
/* A turn without a call, with its name. */
int order_share(struct order *order, struct nippersage_task task, const char *what);
/* Before a thread stands at a call: 0, or -EPERM if it isn't the one that goes on, or calls as another task. */
int order_may_stand(struct order *order, struct nippersage_task task, int is_going);
int order_is_asleep(const struct order *order, struct nippersage_task task);
int order_is_by_turn(const struct order *order);
/* Makes turns of the clock until a task is to go: its number, or NOBODY if the order is over. */
int order_next(struct order *order);
/* Looks whether the order before went on from here, at the end. */
void order_look_at_end(struct order *order);

/* ---- outcomes ---- */

/* An outcome by its bytes, by which it is found again, and their hash. */
struct known {
    uint64_t hash;
    char *bytes;
    size_t length;
};

/* What orders came to, where that is counted. An outcome has the same place in `all` as in the result. */
struct outcomes {
    struct text now; /* what the last order came to, as bytes */
    struct known *all;
    size_t count, room, told_room;
    size_t *slots;      /* the places from 1 on, found by the hash; 0 is a free slot */
    size_t slots_count; /* a power of two; half of them are free at least */
};

/* ---- a search ---- */

/* A failure as it is known before its text is made: two are of one sort if these are the same. */
struct verdict {
    int kind, mark;
};

struct search {
    const struct nippersage_program *program;
    void *shared;
    struct nippersage_options options;
    struct nippersage_result *result;
    const char *name_list[MOST_TASKS];
    struct names names;
    struct ways ways;
    struct order order;
    struct steps steps[2];
    struct tables tables;
    struct text check;           /* what the check found */
    struct fault fault;
    struct text how;             /* how the first failure was found */
    struct outcomes outcomes;
    int is_abandoned;            /* whether a thread is left that may use all this */
    double began;
};

static inline int clock_of(const struct search *search) { return search->names.count; }

/* Runs one order to its end, and judges it. 0, or minus an error number with what is wrong in the search's fault. */
int run_order(struct search *search, struct ways *ways, struct verdict *verdict);
/* Why the last order failed, in one line. */
void text_verdict(struct text *text, struct search *search, struct verdict verdict);
/* A line for each task that sleeps at the end of the last order. */
void text_asleep(struct text *text, struct search *search);
struct verdict judge(struct search *search);

/* Counts what the last order came to, if that is asked for. 0 or -ENOMEM. */
int outcomes_add(struct search *search, struct verdict verdict);
void outcomes_free(struct outcomes *outcomes);
/* Frees those of a result, which then has none. */
void outcomes_drop(struct nippersage_result *result);

/* Makes the order of these turns small. How many orders were tried. */
int shrink(struct search *search, struct turns_made *best, struct verdict verdict, uint64_t *tried);

void text_failure(struct text *text, struct search *search, struct verdict verdict, const struct turns_made *first,
                  size_t first_chosen, uint64_t shrunk);
void text_covered(struct text *text, const struct nippersage_result *result, const struct text *parts);
void text_order(struct text *text, const struct search *search, const uint8_t *turns, size_t count, size_t chosen);

#endif
