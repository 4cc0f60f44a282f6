/* What the environment says of the shim. It is read once, at the first look at a descriptor, without a call of anything
   that the program may have replaced: a getenv or an allocator of its own. A bad value ends the program with a line. */
#include "preload.h"

#include <limits.h>
#include <pthread.h>
#include <stdio.h>
#include <stdlib.h>
#include <sys/xattr.h>

FORWARD(_exit)
FORWARD(write)

#define MOST_RECORDS 1000000000000

_Atomic(const struct settings *) read_settings;

static struct settings values = {
    .first = 512,
    .busy_waits = 1000,
    .patience = 1000,
    .child_time = 1,
    .limits = {.descriptors = 1024,
               .files = 4096,
               .processes = 64,
               .watches = 4096,
               .pipe_bytes = 65536,
               .sock_bytes = 65536},
};

const char *variable(const char *name) {
    size_t size = strlen(name);
    for (char **each = environ; each && *each; each++)
        if (strncmp(*each, name, size) == 0 && (*each)[size] == '=') return *each + size + 1;
    return NULL;
}

_Noreturn void end_for_setting(const char *name, const char *value, const char *why) {
    say("%s is \"%s\": %s; status %d", name, value, why, STATUS_SETTING);
    next__exit()(STATUS_SETTING);
    abort();
}

/* The decimal number at the beginning of a text, or false. A value that is too large is the largest one. */
static bool read_number(const char **text, uint64_t *number) {
    const char *at = *text;
    *number = 0;
    for (; *at >= '0' && *at <= '9'; at++) {
        uint64_t digit = (uint64_t)(*at - '0');
        *number = *number > (UINT64_MAX - digit) / 10 ? UINT64_MAX : *number * 10 + digit;
    }
    if (at == *text) return false;
    *text = at;
    return true;
}

uint64_t whole_number(const char *name, uint64_t least, uint64_t most, uint64_t otherwise) {
    const char *value = variable(name), *rest = value;
    uint64_t number;
    char why[96];
    if (!value) return otherwise;
    if (read_number(&rest, &number) && *rest == '\0' && number >= least && number <= most) return number;
    snprintf(why, sizeof why, "it has to be a whole number from %llu to %llu", (unsigned long long)least,
             (unsigned long long)most);
    end_for_setting(name, value, why);
}

/* ---- the limits of the kernel ---- */

/* The shim has an instance of its own and a second one for each call that blocks, beside the three descriptors and the
   one file that a kernel begins with. */
static const struct limit {
    const char *name;
    size_t place;
    uint32_t least, most;
} limits_in_order[] = {
    {"descriptors", offsetof(struct nippersage_limits, descriptors), 8, 65536},
    {"files", offsetof(struct nippersage_limits, files), 4, 1000000},
    {"processes", offsetof(struct nippersage_limits, processes), 1, 10000},
    {"watches", offsetof(struct nippersage_limits, watches), 1, 1000000},
    {"pipe_bytes", offsetof(struct nippersage_limits, pipe_bytes), 4096, 1048576},
    {"sock_bytes", offsetof(struct nippersage_limits, sock_bytes), 1, 1048576},
};
enum { LIMITS = sizeof limits_in_order / sizeof *limits_in_order };

static void read_limits(void) {
    const char *value = variable("NIPPERSAGE_LIMITS"), *rest = value;
    char why[128];
    for (int i = 0; value && i < LIMITS; i++) {
        const struct limit *limit = &limits_in_order[i];
        uint64_t number;
        if (!read_number(&rest, &number) || *rest != (i + 1 < LIMITS ? ',' : '\0'))
            end_for_setting("NIPPERSAGE_LIMITS", value,
                            "it has to be six whole numbers with commas between, as 1024,4096,64,4096,65536,65536");
        rest++;
        if (number < limit->least || number > limit->most) {
            snprintf(why, sizeof why, "%s is %llu, and goes from %u to %u", limit->name, (unsigned long long)number,
                     limit->least, limit->most);
            end_for_setting("NIPPERSAGE_LIMITS", value, why);
        }
        *(uint32_t *)(void *)((char *)&values.limits + limit->place) = (uint32_t)number;
    }
}

/* ---- files ---- */

/* The path that a variable has, from the folder in which the program begins, for it may go to another one; or NULL. */
static const char *begin_path(const char *name, char room[PATH_MAX]) {
    const char *value = variable(name);
    size_t size = 0;
    if (!value) return NULL;
    if (value[0] != '/' && getcwd(room, PATH_MAX - 1)) {
        size = strlen(room);
        room[size++] = '/';
    }
    if (size + strlen(value) >= PATH_MAX) end_for_setting(name, value, "its path is too long");
    strcpy(room + size, value);
    return room;
}

static void read_all(void) {
    static char history[PATH_MAX], log[PATH_MAX];
    read_limits();
    values.history = begin_path("NIPPERSAGE_HISTORY", history);
    values.log = begin_path("NIPPERSAGE_LOG", log);
    values.first = (int)whole_number("NIPPERSAGE_REAL_DESCRIPTORS", 16, 1000000, (uint64_t)values.first);
    values.busy_waits = whole_number("NIPPERSAGE_BUSY_WAITS", 0, MOST_RECORDS, values.busy_waits);
    values.patience = whole_number("NIPPERSAGE_PATIENCE", 0, MOST_RECORDS, values.patience);
    values.child_time = whole_number("NIPPERSAGE_CHILD_TIME", 0, 1000, values.child_time);
    values.records = whole_number("NIPPERSAGE_RECORDS", 1, MOST_RECORDS, 0);
    atomic_store(&read_settings, &values);
}

void make_all_numbers_real(void) { values.first = INT_MAX; }

const struct settings *make_settings(void) {
    static pthread_once_t once = PTHREAD_ONCE_INIT;
    pthread_once(&once, read_all);
    return &values;
}

/* ---- for run ---- */

/* NIPPERSAGE_LOOK names a program: this one only tells whether that one has file capabilities. */
__attribute__((constructor(101))) static void look(void) {
    static const char answer[] = "capabilities\n";
    const char *path = variable("NIPPERSAGE_LOOK");
    ssize_t told = 0;
    if (!path) return;
    if (getxattr(path, "security.capability", NULL, 0) > 0)
        told = next_write()(STDOUT_FILENO, answer, sizeof answer - 1);
    next__exit()(told < 0 ? STATUS_SETTING : 0);
}
