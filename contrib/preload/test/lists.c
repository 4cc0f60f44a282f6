/* The lists of this process' descriptors in /proc, which have the simulated ones, too: as a program reads them that
   closes all it has, or looks for one that it has left. */
#include "trace.h"

#include <dirent.h>
#include <fcntl.h>
#include <stdlib.h>
#include <string.h>
#include <sys/epoll.h>
#include <sys/eventfd.h>
#include <sys/socket.h>
#include <sys/wait.h>
#include <unistd.h>

enum { MOST = 4096 };

static bool is_listed[MOST];

/* How many numbers a list has, without the one by which it is read. */
static int read_list(DIR *list) {
    struct dirent *entry;
    int count = 0, others = 0;
    memset(is_listed, 0, sizeof is_listed);
    while ((entry = readdir(list))) {
        char *end;
        long fd = strtol(entry->d_name, &end, 10);
        bool is_number = end != entry->d_name && *end == '\0' && fd >= 0 && fd < MOST;
        others += !is_number;
        if (!is_number || fd == dirfd(list)) continue;
        if (is_listed[fd]) trace("%ld comes twice", fd);
        is_listed[fd] = true;
        count++;
    }
    if (others != 2) trace("other names: %d", others);
    return count;
}

static int count_in(const char *path) {
    DIR *list = opendir(path);
    int count;
    if (!list) return -errno;
    count = read_list(list);
    if (closedir(list) != 0) trace("closedir: %s", strerror(errno));
    return count;
}

static void by_names(void) {
    char of_process[64];
    const char *paths[] = {"/proc/self/fd", "/proc/self/fd/", "/dev/fd", "/proc/self/fdinfo", "/proc/thread-self/fd",
                           of_process};
    int before, count, ends[2];
    snprintf(of_process, sizeof of_process, "/proc/%d/fd", getpid());
    for (size_t i = 0; i < sizeof paths / sizeof *paths; i++) {
        before = count_in(paths[i]);
        pipe(ends);
        count = count_in(paths[i]) - before;
        trace("list %zu: %d more, there: %d %d", i, count, is_listed[ends[0]], is_listed[ends[1]]);
        close(ends[0]);
        count = count_in(paths[i]) - before;
        trace("list %zu: %d more, there: %d %d", i, count, is_listed[ends[0]], is_listed[ends[1]]);
        close(ends[1]);
    }
}

static void of_all_kinds(void) {
    int before = count_in("/proc/self/fd"), sides[2], instance = epoll_create1(0), event = eventfd(0, 0), copy, file;
    socketpair(AF_UNIX, SOCK_STREAM, 0, sides);
    copy = dup(event);
    file = open("/dev/null", O_RDONLY);
    trace("six more: %d", count_in("/proc/self/fd") - before);
    trace("all are there: %d", is_listed[sides[0]] && is_listed[sides[1]] && is_listed[instance] && is_listed[event] &&
                                   is_listed[copy] && is_listed[file]);
    close(file);
    close(copy);
    close(event);
    close(instance);
    close(sides[0]);
    close(sides[1]);
    trace("as before: %d", count_in("/proc/self/fd") - before);
}

/* Two lists at once, one of which begins again. */
static void again(void) {
    DIR *first = opendir("/proc/self/fd"), *second = opendir("/proc/self/fd");
    int ends[2], in_first, in_second;
    pipe(ends);
    in_first = read_list(first);
    in_second = read_list(second);
    trace("as many in both: %d", in_first == in_second);
    trace("then nothing: %d", readdir(first) == NULL);
    rewinddir(first);
    trace("again: %d", read_list(first) == in_first && is_listed[ends[0]] && is_listed[ends[1]]);
    closedir(first);
    rewinddir(second);
    trace("one less: %d", in_second - read_list(second));
    closedir(second);
    close(ends[0]);
    close(ends[1]);
}

/* A program that closes what it has, by the list. */
static void close_all(void) {
    int ends[2], more[2], before = count_in("/proc/self/fd"), closed = 0;
    pipe(ends);
    pipe(more);
    count_in("/dev/fd");
    for (int fd = 3; fd < MOST; fd++)
        if (is_listed[fd] && close(fd) == 0) closed++;
    trace("closed: %d", closed >= 4);
    trace("not more: %d", count_in("/dev/fd") <= before);
    trace("written: %ld", outcome(write(ends[1], "x", 1)));
}

static void in_child(void) {
    int ends[2], status = 0;
    pipe(ends);
    fflush(stdout);
    if (fork() == 0) {
        int count = count_in("/proc/self/fd");
        _exit(is_listed[ends[0]] && is_listed[ends[1]] && count < 20 ? 3 : 1);
    }
    wait(&status);
    trace("in a child: %d", WEXITSTATUS(status));
    close(ends[0]);
    close(ends[1]);
}

static void others(void) {
    DIR *folder = opendir("/proc/self");
    struct dirent *entry;
    bool has_fd = false;
    while ((entry = readdir(folder))) has_fd |= strcmp(entry->d_name, "fd") == 0;
    closedir(folder);
    trace("another folder: %d", has_fd);
    trace("none: %d", count_in("/nowhere"));
}

int main(void) {
    trace("begins");
    usleep(10000);
    by_names();
    of_all_kinds();
    again();
    in_child();
    others();
    close_all();
    return 0;
}
