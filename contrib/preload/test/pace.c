/* How the clock goes while a child lives, and after it. An hour that took an hour would end the run. */
#include "child.h"
#include "trace.h"

#include <fcntl.h>
#include <poll.h>
#include <pthread.h>
#include <semaphore.h>
#include <signal.h>
#include <spawn.h>
#include <stdlib.h>
#include <string.h>
#include <sys/timerfd.h>
#include <sys/wait.h>
#include <unistd.h>

static pid_t run(const char *command, int out[2]) {
    pid_t child;
    pipe(out);
    child = fork();
    if (child == 0) {
        dup2(out[1], 1);
        close_range(3, ~0U, 0);
        execl("/bin/sh", "sh", "-c", command, NULL);
        _exit(127);
    }
    close(out[1]);
    return child;
}

/* What comes first: the end of so many milliseconds, or of a child. */
static void race(const char *command, int milliseconds) {
    int out[2], found;
    pid_t child = run(command, out);
    long began = clock_now();
    struct pollfd file = {out[0], POLLIN, 0};
    found = poll(&file, 1, milliseconds);
    printf("%s: %s", command, found == 0 ? "the time" : "the child");
    printf(found == 0 ? " after %ld ms\n" : "\n", clock_now() - began);
    send_to(child, SIGKILL);
    waitpid(child, NULL, 0);
    close(out[0]);
}

static void hours(void) {
    long began = clock_now();
    for (int i = 0; i < 3; i++) sleep(3600);
    printf("three hours: %ld s\n", (clock_now() - began) / 1000);
}

/* A time that begins after a wait isn't shorter by it, though no time passed for the program in the wait. */
static void time_after_wait(void) {
    int out[2], status = -1;
    pid_t child = run("sleep 2; echo x; sleep 0.1; echo y", out);
    struct pollfd file = {out[0], POLLIN, 0};
    char bytes[2];
    read(out[0], bytes, sizeof bytes);
    printf("before its second line comes %s\n", poll(&file, 1, 1900) == 0 ? "the time" : "nothing");
    read(out[0], bytes, sizeof bytes);
    printf("the last one: %c, ", bytes[0]);
    waitpid(child, &status, 0);
    printf("status %d\n", status);
    close(out[0]);
}

/* A child that is never silent for long keeps no time from coming. */
static void chatter(void) {
    int out[2], lines = 0;
    pid_t child = run("while :; do echo; sleep 0.02; done", out);
    long end = clock_now() + 500, left;
    struct pollfd file = {out[0], POLLIN, 0};
    char bytes[64];
    while ((left = end - clock_now()) > 0) {
        if (poll(&file, 1, (int)left) == 1) read(out[0], bytes, sizeof bytes);
        lines++;
    }
    printf("the time comes: %d\n", lines > 2);
    send_to(child, SIGKILL);
    waitpid(child, NULL, 0);
    close(out[0]);
}

/* How long the machine has been up, in milliseconds: the shim leaves that alone. It goes by hundredths of a second. */
static long real_now(void) {
    FILE *file = fopen("/proc/uptime", "r");
    double seconds = 0;
    if (!file || fscanf(file, "%lf", &seconds) != 1) printf("no real time\n");
    if (file) fclose(file);
    return (long)(seconds * 1000);
}

/* Polls that find nothing take no more than their real time: at most a millisecond for a real one. */
static void polls(void) {
    int out[2], count = 0;
    pid_t child = run("exec sleep 1000", out);
    long real = real_now(), began = clock_now(), passed = 0;
    struct pollfd file = {out[0], POLLIN, 0};
    while ((count <= 100 || passed < 100) && poll(&file, 1, 0) == 0) {
        count++;
        passed = clock_now() - began;
    }
    real = real_now() - real;
    printf("polls: %s\n", passed >= 100 && passed <= real + 20 ? "real milliseconds" : "other ones");
    if (passed > real + 20) printf("%ld ms in %ld real ones\n", passed, real);
    send_to(child, SIGKILL);
    waitpid(child, NULL, 0);
    close(out[0]);
}

/* What passed before a guard, in looks, doesn't make it come early. */
static void guard_after_looks(void) {
    int in[2], out[2];
    pid_t child;
    char byte = 'x';
    pipe(in), pipe(out);
    child = fork();
    if (child == 0) {
        close(in[1]), close(out[0]);
        if (read(in[0], &byte, 1) == 1 && usleep(50000) == 0) write(out[1], &byte, 1);
        _exit(0);
    }
    close(in[0]), close(out[1]);
    struct pollfd file = {out[0], POLLIN, 0};
    for (int i = 0; i < 2000; i++) poll(&file, 1, 0);
    write(in[1], &byte, 1);
    printf("after two seconds of looks comes %s\n", poll(&file, 1, 1000) == 0 ? "the time" : "the child");
    waitpid(child, NULL, 0);
    close(in[1]), close(out[0]);
}

/* Signals that end each wait keep no time from coming. */
static void on_signal(int signal) { (void)signal; }

static void time_beside_signals(void) {
    const struct itimerspec soon = {.it_value = {0, 500000000}};
    int timer = timerfd_create(CLOCK_MONOTONIC, 0), waits = 0;
    struct pollfd file = {timer, POLLIN, 0};
    pid_t parent = getpid(), child;
    signal(SIGUSR1, on_signal);
    child = fork();
    if (child == 0) {
        while (kill(parent, SIGUSR1) == 0) usleep(20000);
        _exit(0);
    }
    timerfd_settime(timer, 0, &soon, NULL);
    while (waits < 1000 && poll(&file, 1, 60000) != 1) waits++;
    printf("beside signals the time comes: %d\n", waits < 1000);
    send_to(child, SIGKILL);
    waitpid(child, NULL, 0);
    close(timer);
}

/* What a child leaves behind holds the clock for a second after its last bytes. */
static void daemon_of_child(void) {
    int out[2];
    pid_t child = run("echo begins; sleep 10 & exit", out);
    char bytes[16];
    read(out[0], bytes, sizeof bytes);
    waitpid(child, NULL, 0);
    hours();
    printf("its end is open: %ld\n", outcome(fcntl(out[0], F_SETFL, O_NONBLOCK)));
    printf("nothing: %ld\n", outcome(read(out[0], bytes, sizeof bytes)));
    close(out[0]);
}

/* A guard in one thread, while another one makes the first child. The real kernel's table of descriptors grows for it,
   which takes some milliseconds in which the thread can't go on: it doesn't wait for a time. */
static sem_t done;

static void *make_first(void *nothing) {
    char *words[] = {"true", NULL}, *environment[] = {NULL};
    pid_t child = -1;
    if (posix_spawnp(&child, "true", NULL, NULL, words, environment) == 0) waitpid(child, NULL, 0);
    sem_post(&done);
    return nothing;
}

static void guard(void) {
    struct timespec end;
    pthread_t beside;
    sem_init(&done, 0, 0);
    clock_gettime(CLOCK_REALTIME, &end);
    end.tv_sec += 60;
    pthread_create(&beside, NULL, make_first, NULL);
    printf("beside a guard: %ld\n", outcome(sem_timedwait(&done, &end)));
    pthread_join(beside, NULL);
}

int main(int count, char **words) {
    if (count == 2 && strcmp(words[1], "standing") == 0) {
        race("sleep 0.3", 100);
        hours();
        return 0;
    }
    guard();
    race("exec sleep 100", 200);
    race("echo", 60000);
    hours();
    time_after_wait();
    chatter();
    polls();
    guard_after_looks();
    time_beside_signals();
    daemon_of_child();
    return 0;
}
