/* The lists of this process' descriptors in /proc, as opendir and readdir tell them: behind the real ones come the
   simulated ones, and those of the shim's own are left out. So a program that closes all that it has, or looks for one
   that it has left, sees what it would see on Linux. paths.c says which paths name a list. */
#include "preload.h"

#include <dirent.h>
#include <stdio.h>
#include <stdlib.h>

/* readdir_r, which programs should leave. */
#pragma GCC diagnostic ignored "-Wdeprecated-declarations"

FORWARD(closedir)
FORWARD(opendir)
FORWARD(readdir)
FORWARD(readdir_r)
FORWARD(rewinddir)
FORWARD(seekdir)

/* One that is being read. */
struct list {
    DIR *folder;
    int next; /* the kernel's number that comes next */
    unsigned char type;
    struct dirent entry;
    struct list *following;
};

static struct list *all; /* under the table's lock */
static atomic_int count;

static void begin_list(DIR *folder, const char *path) {
    struct list *list;
    QUIET;
    self();
    list = malloc(sizeof *list);
    if (!list) return; /* then it lacks the simulated ones */
    *list = (struct list){.folder = folder, .type = strstr(path, "/fdinfo") ? DT_REG : DT_LNK};
    lock_table();
    list->following = all;
    all = list;
    unlock_table();
    atomic_fetch_add(&count, 1);
}

static struct list *find_list(DIR *folder) {
    struct list *list;
    if (is_outside || atomic_load(&count) == 0) return NULL;
    QUIET;
    lock_table();
    list = all;
    while (list && list->folder != folder) list = list->following;
    unlock_table();
    return list;
}

static void end_list(DIR *folder) {
    struct list *list = find_list(folder), **link = &all;
    if (!list) return;
    QUIET;
    lock_table();
    while (*link != list) link = &(*link)->following;
    *link = list->following;
    unlock_table();
    free(list);
    atomic_fetch_sub(&count, 1);
}

/* ---- entries ---- */

/* The next number of the kernel that names something of the program's, or -1. */
static int next_number(struct list *list) {
    bool closes;
    int found = -1;
    QUIET;
    lock_table();
    while (list->next < NUMBERS && found < 0) {
        if (description_at(list->next, &closes)) found = list->next;
        list->next++;
    }
    unlock_table();
    return found;
}

static struct dirent *next_simulated(struct list *list) {
    int number = next_number(list);
    if (number < 0) return NULL;
    list->entry = (struct dirent){.d_ino = (ino_t)(number + FIRST), .d_reclen = sizeof list->entry,
                                  .d_type = list->type};
    list->entry.d_off = INT64_MAX;
    snprintf(list->entry.d_name, sizeof list->entry.d_name, "%d", number + FIRST);
    return &list->entry;
}

/* A real number that is above those of the program. */
static bool is_own(const struct dirent *entry) { return strtol(entry->d_name, NULL, 10) >= FIRST; }

struct dirent *readdir(DIR *folder) {
    struct list *list = find_list(folder);
    struct dirent *entry;
    if (!list) return next_readdir()(folder);
    do {
        entry = list->next == 0 ? next_readdir()(folder) : NULL;
    } while (entry && is_own(entry));
    return entry ? entry : next_simulated(list);
}

int readdir_r(DIR *restrict folder, struct dirent *restrict entry, struct dirent **restrict found) {
    struct dirent *next;
    if (!find_list(folder)) return next_readdir_r()(folder, entry, found);
    next = readdir(folder);
    if (next) memcpy(entry, next, next->d_reclen < sizeof *entry ? next->d_reclen : sizeof *entry);
    *found = next ? entry : NULL;
    return 0;
}

_Static_assert(sizeof(struct dirent) == sizeof(struct dirent64), "on x86-64 they are one");

struct dirent64 *readdir64(DIR *folder) { return (struct dirent64 *)(void *)readdir(folder); }

int readdir64_r(DIR *restrict folder, struct dirent64 *restrict entry, struct dirent64 **restrict found) {
    return readdir_r(folder, (struct dirent *)(void *)entry, (struct dirent **)(void *)found);
}

/* ---- folders ---- */

DIR *opendir(const char *path) {
    DIR *folder;
    if (is_list(path)) {
        folder = next_opendir()(path);
        if (folder) begin_list(folder, path);
        return folder;
    }
    return may_reach("opendir", path) ? next_opendir()(path) : NULL;
}

int closedir(DIR *folder) {
    end_list(folder);
    return next_closedir()(folder);
}

static void begin_again(DIR *folder) {
    struct list *list = find_list(folder);
    if (list) list->next = 0;
}

void rewinddir(DIR *folder) {
    begin_again(folder);
    next_rewinddir()(folder);
}

/* To a place among the real ones: those that are simulated have none. */
void seekdir(DIR *folder, long place) {
    begin_again(folder);
    next_seekdir()(folder, place);
}
