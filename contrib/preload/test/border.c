/* Calls across the border between real and simulated numbers: what is right, and what is refused with a line. Simulated
   only; border.out is what both streams have to say. */
#include "trace.h"

#include <dirent.h>
#include <fcntl.h>
#include <linux/close_range.h>
#include <poll.h>
#include <sched.h>
#include <signal.h>
#include <spawn.h>
#include <sys/wait.h>
#include <stdlib.h>
#include <string.h>
#include <sys/resource.h>
#include <sys/syscall.h>
#include <unistd.h>

extern char **environ;

static void tell(const char *call, long result) {
    printf("%s: %ld\n", call, outcome(result));
    fflush(stdout);
}

static void is_open(const char *what, int fd) {
    printf("%s: %s\n", what, fcntl(fd, F_GETFD) >= 0 ? "open" : "closed");
    fflush(stdout);
}

static void copies(int real, const int ends[2]) {
    tell("real onto simulated", dup2(real, ends[0]));
    tell("by number", syscall(SYS_dup2, real, ends[0]));
    tell("dup3", dup3(real, ends[0], O_CLOEXEC));
    tell("simulated onto real", dup2(ends[0], real));
    tell("by number", syscall(SYS_dup3, ends[0], real, 0));
    tell("real from a simulated number on", fcntl(real, F_DUPFD, ends[0]));
    tell("by number", syscall(SYS_fcntl, real, F_DUPFD_CLOEXEC, ends[0]));
    tell("real above all", fcntl(real, F_DUPFD, 100000));
    is_open("real", real);
    is_open("simulated", ends[0]);
    tell("real from a real number on", fcntl(real, F_DUPFD, 100));
    tell("its close", close(100));
    tell("simulated from a real number on", fcntl(ends[0], F_DUPFD, 3));
    tell("its close", close(518));
    tell("by number", syscall(SYS_dup, ends[0]));
    tell("its close", syscall(SYS_close, 519));
}

/* A number once closed is the lowest free one of its kind. */
static void lowest(int real) {
    int ends[2], copy;
    close(real);
    tell("pipe beside a free real number", pipe(ends));
    printf("its ends: %d %d\n", ends[0], ends[1]);
    tell("real again", copy = open("/dev/null", O_RDWR));
    close(copy);
    close(ends[0]);
    tell("simulated again", dup(ends[1]));
    close(ends[0]);
    close(ends[1]);
}

static void ranges(int real, int ends[2]) {
    tell("flags", close_range((unsigned int)real, ~0U, 1 << 10));
    tell("backwards", close_range(600, 500, 0));
    tell("table of its own", close_range((unsigned int)real, ~0U, CLOSE_RANGE_UNSHARE));
    is_open("real", real);
    is_open("simulated", ends[0]);
    tell("close on exec", close_range((unsigned int)real, ~0U, CLOSE_RANGE_CLOEXEC));
    printf("flags: %d %d\n", fcntl(real, F_GETFD), fcntl(ends[0], F_GETFD));
    tell("across", close_range((unsigned int)real, (unsigned int)ends[0], 0));
    is_open("real", real);
    is_open("simulated", ends[0]);
    is_open("the next one", ends[1]);
    tell("by number", syscall(SYS_close_range, real, ~0U, 0));
    is_open("the next one", ends[1]);
}

static void lists(int real, const int ends[2]) {
    char path[64], target[64];
    const char *const folders[] = {"/proc/self/fd", "/proc/self/fd/", "/proc/thread-self/fd", "/proc/self/fdinfo",
                                   "/dev/fd"};
    struct dirent **found;
    DIR *tasks;
    for (int i = 0; i < 5; i++) tell(folders[i], scandir(folders[i], &found, NULL, NULL));
    snprintf(path, sizeof path, "/proc/%d/fd", getpid());
    tell("by the process' number", scandir(path, &found, NULL, NULL));
    tell("open", open("/proc/self/fd", O_RDONLY | O_DIRECTORY));
    snprintf(path, sizeof path, "/proc/self/fd/%d", ends[0]);
    tell("a simulated one", open(path, O_RDONLY));
    tell("as a stream", fopen(path, "r") ? 0 : -1);
    tell("its link", readlink(path, target, sizeof target));
    snprintf(path, sizeof path, "/dev/fd/%d", real);
    tell("a real one's link", readlink(path, target, sizeof target));
    printf("leads to %.9s\n", target);
    real = open(path, O_RDONLY);
    tell("a real one", real < 0 ? -1 : close(real));
    tasks = opendir("/proc/self/task");
    tell("another folder", tasks ? closedir(tasks) : -1);
}

static void processes(const int ends[2]) {
    char *words[] = {"true", NULL};
    posix_spawn_file_actions_t actions;
    pid_t made = 0;
    posix_spawn_file_actions_init(&actions);
    printf("actions: %d", posix_spawn_file_actions_adddup2(&actions, 0, ends[1]));
    printf(" %d", posix_spawn_file_actions_addopen(&actions, ends[0], "/dev/null", O_RDONLY, 0));
    printf(" %d", posix_spawn_file_actions_addclosefrom_np(&actions, ends[0]));
    printf(" %d, of a number above all %d\n", posix_spawn_file_actions_addfchdir_np(&actions, ends[0]),
           posix_spawn_file_actions_addclose(&actions, 100000));
    posix_spawn_file_actions_destroy(&actions);
    posix_spawn_file_actions_init(&actions);
    posix_spawn_file_actions_adddup2(&actions, ends[1], 1);
    posix_spawn_file_actions_addclose(&actions, ends[0]);
    fflush(stdout);
    printf("posix_spawn: %d\n", posix_spawn(&made, "/bin/true", &actions, NULL, words, environ));
    fflush(stdout);
    posix_spawn_file_actions_destroy(&actions);
    tell("it ended", waitpid(made, NULL, 0) == made ? 0 : -1);
    tell("clone", clone(NULL, NULL, SIGCHLD, NULL));
    tell("daemon", daemon(1, 1));
    tell("unshare", unshare(CLONE_FILES));
}

/* A program that may have many descriptors by its own limit is told why it doesn't get them. */
static void fill(void) {
    struct rlimit limit = {1500, 1500};
    tell("limit", setrlimit(RLIMIT_NOFILE, &limit));
    while (open("/dev/null", O_RDONLY) >= 0) continue;
    tell("full", -1);
    tell("full", open("/dev/null", O_RDONLY));
    closefrom(3);
    tell("lowest", open("/dev/null", O_RDONLY));
}

int main(void) {
    int ends[2], real = open("/dev/null", O_RDWR);
    tell("pipe", pipe(ends));
    copies(real, ends);
    lists(real, ends);
    processes(ends);
    lowest(real);
    real = open("/dev/null", O_RDWR);
    ranges(real, ends);
    fill();
    return 0;
}
