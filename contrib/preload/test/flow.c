/* What runs leave of their histories, which go out as they come: flow WAY. Each makes 10,000 calls, and then what its way
   says. Simulated only: check looks at the file. */
#include "trace.h"

#include <signal.h>
#include <stdlib.h>
#include <string.h>
#include <sys/eventfd.h>
#include <sys/resource.h>
#include <sys/syscall.h>
#include <sys/wait.h>
#include <unistd.h>

enum { CALLS = 10000 };

static int counter;

static void call_often(int on) {
    for (int i = 0; i < CALLS; i++)
        if (eventfd_write(on, 1) != 0) exit(3);
}

static void end(void) {}

static void be_killed(void) { raise(SIGKILL); }

static void touch(void) { *(volatile char *)8 = 1; }

/* All memory is taken: first in large pieces, and then in small ones. Calls need none. */
static void take_all(void) {
    struct rlimit limit = {1 << 27, 1 << 27};
    setrlimit(RLIMIT_AS, &limit);
    for (size_t size = 1 << 20; size > 0; size /= 2)
        for (void *piece; (piece = malloc(size));) memset(piece, 1, size);
    call_often(counter);
    abort();
}

/* What children do is real, however they end. */
static void make_children(void) {
    for (int way = 0; way < 3; way++) {
        pid_t child = fork();
        if (child == 0) {
            call_often(eventfd(0, 0));
            if (way == 0) exit(0);
            if (way == 1) _exit(0);
            execl("/bin/true", "true", NULL);
            abort();
        }
        waitpid(child, NULL, 0);
        call_often(counter);
    }
}

/* The program closes all that it can name. */
static void close_all(void) {
    for (int fd = 3; fd < 70000; fd++) close(fd);
    closefrom(3);
    call_often(eventfd(0, 0));
}

/* By instructions of its own it closes what it can't name, too. */
static void close_past(void) {
    for (long fd = 3, answer; fd < 2000; fd++)
        __asm__ volatile("syscall" : "=a"(answer) : "0"(SYS_close), "D"(fd) : "rcx", "r11", "memory");
    call_often(counter);
}

static void *sleep_once(void *nothing) {
    usleep(1000);
    return nothing;
}

/* No time passes while this thread goes on, though it has to wait until its history is taken. What processors measure is
   real: by then the other one sleeps. */
static void be_slow(void) {
    pthread_t sleeper;
    long before = clock_now();
    pthread_create(&sleeper, NULL, sleep_once, NULL);
    for (clock_t began = clock(); clock() - began < CLOCKS_PER_SEC / 10;) {}
    for (int i = 0; i < 4; i++) call_often(counter);
    if (clock_now() != before) exit(4);
    pthread_join(sleeper, NULL);
    if (clock_now() != before + 1) exit(5);
}

static const struct way {
    const char *name;
    void (*go)(void);
} ways[] = {
    {"end", end},          {"abort", abort},     {"kill", be_killed},     {"fault", touch},
    {"memory", take_all},  {"close", close_all}, {"closed", close_past},  {"children", make_children},
    {"slow", be_slow},
};

int main(int count, char **words) {
    for (size_t i = 0; count > 1 && i < sizeof ways / sizeof *ways; i++) {
        if (strcmp(ways[i].name, words[1]) != 0) continue;
        counter = eventfd(0, 0);
        call_often(counter);
        ways[i].go();
        printf("ended\n");
        return 0;
    }
    return 2;
}
