/* Which descriptor names which file, and which files each instance watches, by the calls that were made. The kernel
 * doesn't tell this. But every call goes by here with its answer, and docs/calls.md says what a call does to descriptors
 * and registrations. So dup, close, fork and numbers that are given out again are followed. What a registration shows,
 * whether it is armed, and when it was reported last, the kernel tells. */
#include "orders.h"

#include <errno.h>
#include <stdlib.h>
#include <string.h>

static struct named *name_at(const struct tables *tables, uint64_t pid, int fd) {
    for (size_t i = 0; i < tables->names_count; i++)
        if (tables->names[i].pid == pid && tables->names[i].fd == fd) return &tables->names[i];
    return NULL;
}

static int file_at(const struct tables *tables, uint64_t pid, int fd) {
    const struct named *named = name_at(tables, pid, fd);
    return named ? named->file : NOBODY;
}

static void put_name(struct tables *tables, struct named named) {
    struct named *there = name_at(tables, named.pid, named.fd);
    if (there) {
        *there = named;
    } else if (has_place((void **)&tables->names, tables->names_count, &tables->names_room, sizeof *tables->names)) {
        tables->names[tables->names_count++] = named;
    } else {
        tables->lacks = 1;
    }
}

static void drop_name(struct tables *tables, size_t place) { tables->names[place] = tables->names[--tables->names_count]; }

const struct named *tables_name(const struct tables *tables, int file, uint64_t pid_first) {
    const struct named *best = NULL;
    for (size_t i = 0; i < tables->names_count; i++) {
        const struct named *it = &tables->names[i];
        if (it->file != file) continue;
        if (!best || ((it->pid == pid_first) > (best->pid == pid_first)) ||
            ((it->pid == pid_first) == (best->pid == pid_first) &&
             (it->pid < best->pid || (it->pid == best->pid && it->fd < best->fd))))
            best = it;
    }
    return best;
}

int tables_has_name(const struct tables *tables, uint64_t pid, int fd, int file) {
    return file_at(tables, pid, fd) == file;
}

const struct sleeping *tables_sleeper(const struct tables *tables, int number) {
    for (size_t i = 0; i < tables->asleep_count; i++)
        if (tables->asleep[i].number == number) return &tables->asleep[i];
    return NULL;
}

/* A number names the file, or somebody sleeps at it. Registrations die with their file. */
int tables_is_alive(const struct tables *tables, int file) {
    for (size_t i = 0; i < tables->asleep_count; i++)
        if (tables->asleep[i].file == file) return 1;
    return tables_name(tables, file, 0) != NULL;
}

/* ---- what each call does ---- */

static void open_file(struct tables *tables, const struct step *step, int fd) {
    put_name(tables, (struct named){step->request.pid, fd, tables->files++, (step->request.flags & EP_CLOEXEC) != 0});
}

static size_t watch_place(const struct tables *tables, int instance, int fd, int file) {
    size_t place = 0;
    while (place < tables->watches_count && !(tables->watches[place].instance == instance &&
                                              tables->watches[place].fd == fd && tables->watches[place].file == file))
        place++;
    return place;
}

static void change_watch(struct tables *tables, const struct step *step) {
    const struct ep_request *request = &step->request;
    int instance = file_at(tables, request->pid, request->fd), file = file_at(tables, request->pid, request->target);
    size_t place = watch_place(tables, instance, request->target, file);
    if (request->number == EPOLL_CTL_DEL && place < tables->watches_count) {
        tables->watches_count--;
        memmove(&tables->watches[place], &tables->watches[place + 1],
                (tables->watches_count - place) * sizeof *tables->watches);
    } else if (request->number == EPOLL_CTL_ADD && place == tables->watches_count) {
        if (has_place((void **)&tables->watches, place, &tables->watches_room, sizeof *tables->watches))
            tables->watches[tables->watches_count++] =
                (struct watch){.instance = instance, .fd = request->target, .file = file};
        else
            tables->lacks = 1;
    }
}

static void note_wait(struct tables *tables, const struct step *step) {
    int instance = file_at(tables, step->request.pid, step->request.fd);
    if (step->result >= 0) return;
    if (has_place((void **)&tables->asleep, tables->asleep_count, &tables->asleep_room, sizeof *tables->asleep))
        tables->asleep[tables->asleep_count++] =
            (struct sleeping){step->number, instance, step->request.fd, step->request.pid};
    else
        tables->lacks = 1;
}

static void note_resumption(struct tables *tables, const struct step *step) {
    for (size_t i = 0; i < tables->asleep_count; i++) {
        if (tables->asleep[i].number != step->number) continue;
        tables->asleep[i] = tables->asleep[--tables->asleep_count];
        return;
    }
}

static void note_fork(struct tables *tables, const struct step *step) {
    size_t count = tables->names_count;
    for (size_t i = 0; i < count; i++) {
        struct named copy = tables->names[i];
        if (copy.pid != step->request.pid) continue;
        copy.pid = (uint64_t)step->result;
        put_name(tables, copy);
    }
}

/* Drops the numbers of a process: all, or those with close-on-exec. */
static void drop_names(struct tables *tables, uint64_t pid, int only_cloexec) {
    for (size_t i = tables->names_count; i-- > 0;)
        if (tables->names[i].pid == pid && (!only_cloexec || tables->names[i].is_cloexec)) drop_name(tables, i);
}

static void note_dup(struct tables *tables, const struct step *step) {
    uint64_t pid = step->request.pid;
    if (step->result == step->request.fd) return;
    put_name(tables, (struct named){pid, (int)step->result, file_at(tables, pid, step->request.fd), 0});
}

static void note_close(struct tables *tables, const struct step *step) {
    const struct named *named = name_at(tables, step->request.pid, step->request.fd);
    if (named) drop_name(tables, (size_t)(named - tables->names));
}

static void follow(struct tables *tables, const struct step *step) {
    if (step->result < 0 && !(step->request.event == EP_WAIT && step->result == EP_PARKED)) return;
    switch (step->request.event) {
    case EP_PIPE: case EP_SOCKETPAIR:
        open_file(tables, step, step->first);
        open_file(tables, step, step->second);
        break;
    case EP_EVENTFD: case EP_TIMERFD: case EP_PLAIN: case EP_CREATE: case EP_SOCKET: case EP_ACCEPT:
        open_file(tables, step, (int)step->result);
        break;
    case EP_CTL: change_watch(tables, step); break;
    case EP_WAIT: note_wait(tables, step); break;
    case EP_RESUME: note_resumption(tables, step); break;
    case EP_DUP: case EP_DUP2: note_dup(tables, step); break;
    case EP_CLOSE: note_close(tables, step); break;
    case EP_FORK: note_fork(tables, step); break;
    case EP_EXEC: drop_names(tables, step->request.pid, 1); break;
    case EP_EXIT: drop_names(tables, step->request.pid, 0); break;
    default: break;
    }
}

void tables_build(struct tables *tables, const struct steps *steps) {
    tables->names_count = tables->watches_count = tables->asleep_count = 0;
    tables->files = 1;
    tables->lacks = 0;
    for (int fd = 0; fd < 3; fd++) put_name(tables, (struct named){1, fd, 0, 0});
    for (size_t i = 0; i < steps->count; i++) follow(tables, &steps->all[i]);
}

/* ---- what the kernel tells ---- */

/* Whether the kernel has kept a record of it: it is a call, and it was answered. */
static int is_recorded(const struct step *step) { return step->request.event != 0 && step->result != -ENOMEM; }

struct turn turn_of(const struct steps *steps, uint64_t record) {
    struct turn turn = {0, NOBODY};
    for (size_t i = 0; i < steps->count && record > 0; i++) {
        turn.place += steps->all[i].number != SETUP;
        turn.number = steps->all[i].number;
        if (is_recorded(&steps->all[i])) record--;
    }
    return turn;
}

/* Notes what was told of the registrations of an instance: the kernel tells those that live, in the order in which they
 * were made, as they stand here. */
static void note_told(struct tables *tables, int instance, const struct nippersage_watch *told, size_t count) {
    size_t next = 0;
    for (size_t i = 0; i < tables->watches_count && next < count; i++) {
        struct watch *watch = &tables->watches[i];
        if (watch->instance == instance && tables_is_alive(tables, watch->file)) watch->told = told[next++];
    }
}

static void ask_at(struct tables *tables, struct nippersage_kernel *kernel, const struct sleeping *at) {
    uint32_t caller = (uint32_t)at->number + 1;
    int count = kernel_watches_awaited(kernel, caller, NULL, 0);
    struct nippersage_watch *told;
    if (count <= 0) return;
    told = malloc((size_t)count * sizeof *told);
    if (told && kernel_watches_awaited(kernel, caller, told, count) == count)
        note_told(tables, at->file, told, (size_t)count);
    else
        tables->lacks = 1;
    free(told);
}

void tables_ask(struct tables *tables, struct nippersage_kernel *kernel) {
    for (size_t i = 0; i < tables->asleep_count; i++)
        if (tables->asleep[i].number != SETUP) ask_at(tables, kernel, &tables->asleep[i]);
}

void tables_free(struct tables *tables) {
    free(tables->names);
    free(tables->watches);
    free(tables->asleep);
}
