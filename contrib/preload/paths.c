/* The lists of this process' descriptors in /proc, by their names. They have its real descriptors only: who reads one
   would miss the simulated ones, and take them for closed. opendir and readdir tell those, too: lists.c. Everything else
   that would open a list is refused, and so is a simulated descriptor by its name there. A real one is opened as ever. */
#include "preload.h"

#include <dirent.h>
#include <limits.h>
#include <stdarg.h>
#include <stdio.h>
#include <stdlib.h>

FORWARD(openat)
FORWARD(scandir)
FORWARD(scandir64)
FORWARD(scandirat)
FORWARD(scandirat64)
FORWARD(fopen)
FORWARD(readlink)
FORWARD(readlinkat)

/* ---- what a path names ---- */

/* What stands behind a word at the beginning of a text, or NULL. */
static const char *behind(const char *text, const char *word) {
    size_t size = strlen(word);
    return text && strncmp(text, word, size) == 0 ? text + size : NULL;
}

/* What stands behind the number of this process, or of one of its threads. */
static const char *behind_number(const char *text, long wanted) {
    char *end;
    long number = text ? strtol(text, &end, 10) : 0;
    return text && end != text && (wanted == 0 || number == wanted) ? end : NULL;
}

/* What stands behind the folder of this process, or of a thread, in /proc. */
static const char *behind_process(const char *path) {
    const char *in_proc = behind(path, "/proc/"), *rest = behind(in_proc, "thread-self");
    const char *threads;
    if (!rest) rest = behind(in_proc, "self");
    if (!rest) rest = behind_number(in_proc, getpid());
    threads = behind_number(behind(rest, "/task/"), 0);
    return threads ? threads : rest;
}

/* What stands behind a list of this process' descriptors: "", "/" or "/12"; NULL for every other path. */
static const char *behind_list(const char *path) {
    const char *process = behind_process(path), *rest = behind(process, "/fdinfo");
    if (!rest) rest = behind(process, "/fd");
    if (!rest) rest = behind(path, "/dev/fd");
    return rest && (*rest == '\0' || *rest == '/') ? rest : NULL;
}

/* A path that can't be read names none: the real kernel answers EFAULT for it. */
static const char *behind_own_list(const char *path) {
    bool may_name_one = !is_outside && can_read(path, 1) && path[0] == '/' && can_read_text(path);
    const char *rest = may_name_one ? behind_list(path) : NULL;
    while (rest && *rest == '/') rest++;
    return rest;
}

bool is_list(const char *path) {
    const char *rest = behind_own_list(path);
    return rest && *rest == '\0';
}

bool may_reach(const char *call, const char *path) {
    const char *rest = behind_own_list(path);
    if (!rest) return true;
    if (*rest == '\0') {
        refuse(ENOENT, "%s(%s): this list would lack the simulated descriptors, and is not simulated", call, path);
        return false;
    }
    if (strtol(rest, NULL, 10) < FIRST) return true;
    refuse(ENOENT, "%s(%s): a simulated descriptor can't be opened by its name", call, path);
    return false;
}

/* ---- opening ---- */

/* A program that was told a higher limit would look for the reason elsewhere. */
static int say_if_full(int fd) {
    static atomic_flag is_told = ATOMIC_FLAG_INIT;
    if (fd < 0 && errno == EMFILE && getdtablesize() > FIRST && !atomic_flag_test_and_set(&is_told))
        say("open: all numbers for real descriptors are taken (NIPPERSAGE_REAL_DESCRIPTORS is %d)", FIRST);
    return fd;
}

static int open_real(int folder, const char *path, int flags, mode_t mode) {
    return may_reach("open", path) ? say_if_full(next_openat()(folder, path, flags, mode)) : -1;
}

static mode_t mode_in(int flags, va_list arguments) { return __OPEN_NEEDS_MODE(flags) ? va_arg(arguments, mode_t) : 0; }

int open(const char *path, int flags, ...) {
    va_list arguments;
    mode_t mode;
    va_start(arguments, flags);
    mode = mode_in(flags, arguments);
    va_end(arguments);
    return open_real(AT_FDCWD, path, flags, mode);
}

int openat(int folder, const char *path, int flags, ...) {
    va_list arguments;
    mode_t mode;
    va_start(arguments, flags);
    mode = mode_in(flags, arguments);
    va_end(arguments);
    return open_real(folder, path, flags, mode);
}

/* On x86-64 there is one size of files. */
int open64(const char *path, int flags, ...) __attribute__((alias("open")));
int openat64(int folder, const char *path, int flags, ...) __attribute__((alias("openat")));

int creat(const char *path, mode_t mode) { return open_real(AT_FDCWD, path, O_WRONLY | O_CREAT | O_TRUNC, mode); }

int creat64(const char *path, mode_t mode) { return creat(path, mode); }

/* What the C library makes of them in a program that was compiled with _FORTIFY_SOURCE. */
int __open_2(const char *path, int flags);
int __open_2(const char *path, int flags) { return open_real(AT_FDCWD, path, flags, 0); }

int __open64_2(const char *path, int flags) __attribute__((alias("__open_2")));

int __openat_2(int folder, const char *path, int flags);
int __openat_2(int folder, const char *path, int flags) { return open_real(folder, path, flags, 0); }

int __openat64_2(int folder, const char *path, int flags) __attribute__((alias("__openat_2")));

FILE *fopen(const char *restrict path, const char *restrict mode) {
    return may_reach("fopen", path) ? next_fopen()(path, mode) : NULL;
}

FILE *fopen64(const char *restrict path, const char *restrict mode) { return fopen(path, mode); }

/* ---- folders and links ---- */

int scandir(const char *restrict path, struct dirent ***restrict found, int (*select)(const struct dirent *),
            int (*compare)(const struct dirent **, const struct dirent **)) {
    return may_reach("scandir", path) ? next_scandir()(path, found, select, compare) : -1;
}

int scandir64(const char *restrict path, struct dirent64 ***restrict found, int (*select)(const struct dirent64 *),
              int (*compare)(const struct dirent64 **, const struct dirent64 **)) {
    return may_reach("scandir", path) ? next_scandir64()(path, found, select, compare) : -1;
}

int scandirat(int folder, const char *restrict path, struct dirent ***restrict found,
              int (*select)(const struct dirent *), int (*compare)(const struct dirent **, const struct dirent **)) {
    return may_reach("scandirat", path) ? next_scandirat()(folder, path, found, select, compare) : -1;
}

int scandirat64(int folder, const char *restrict path, struct dirent64 ***restrict found,
                int (*select)(const struct dirent64 *),
                int (*compare)(const struct dirent64 **, const struct dirent64 **)) {
    return may_reach("scandirat", path) ? next_scandirat64()(folder, path, found, select, compare) : -1;
}

ssize_t readlink(const char *restrict path, char *restrict to, size_t size) {
    return may_reach("readlink", path) ? next_readlink()(path, to, size) : -1;
}

ssize_t readlinkat(int folder, const char *restrict path, char *restrict to, size_t size) {
    return may_reach("readlink", path) ? next_readlinkat()(folder, path, to, size) : -1;
}
