/* poll and select of real and simulated descriptors at once, where something is ready or the time is none: files are
   ready always. */
#include "trace.h"

#include <fcntl.h>
#include <poll.h>
#include <signal.h>
#include <stdlib.h>
#include <string.h>
#include <sys/select.h>
#include <sys/socket.h>
#include <unistd.h>

static int file, quiet, ends[2];

static void make(void) {
    char path[] = "/tmp/nippersage-mixed-XXXXXX";
    file = mkstemp(path);
    unlink(path);
    quiet = socket(AF_UNIX, SOCK_DGRAM, 0);
    pipe(ends);
    trace("made: %d", file >= 0 && quiet >= 0 && ends[0] >= 0);
}

/* A number like this one, which is free. */
static int closed(int fd) {
    int copy = dup(fd);
    close(copy);
    return copy;
}

/* ---- poll ---- */

static void tell_poll(const char *name, int found, const struct pollfd *files, int count) {
    trace("%s: %ld", name, outcome(found));
    for (int i = 0; i < count; i++) trace("  %#x", (unsigned int)files[i].revents);
}

static void by_poll(void) {
    struct pollfd files[5] = {{file, POLLIN, 0}, {ends[0], POLLIN, 0}, {ends[1], POLLOUT, 0}, {-1, POLLIN, 7},
                              {file, POLLOUT, 0}};
    char byte;
    tell_poll("a file and a pipe", poll(files, 5, -1), files, 5);
    write(ends[1], "x", 1);
    tell_poll("with a byte", poll(files, 5, 1000), files, 5);
    tell_poll("ppoll", ppoll(files, 5, &(struct timespec){5, 0}, NULL), files, 5);
    read(ends[0], &byte, 1);
    files[0].fd = quiet;
    files[2].events = files[4].events = 0;
    tell_poll("no time", poll(files, 3, 0), files, 3);
    files[2].events = POLLOUT;
    tell_poll("the pipe alone is ready", poll(files, 3, 1000), files, 3);
    files[0].fd = closed(file);
    tell_poll("none of this number", poll(files, 2, 1000), files, 2);
    files[0].fd = file;
    files[1].fd = closed(ends[0]);
    tell_poll("none of that number", poll(files, 2, 1000), files, 2);
    tell_poll("a bad time", ppoll(files, 2, &(struct timespec){0, -1}, NULL), files, 0);
}

/* ---- select ---- */

struct three {
    fd_set reads, writes, excepts;
};

static struct three three_of(int reads, int also, int writes) {
    struct three three;
    FD_ZERO(&three.reads);
    FD_ZERO(&three.writes);
    FD_ZERO(&three.excepts);
    FD_SET(reads, &three.reads);
    FD_SET(also, &three.reads);
    FD_SET(writes, &three.writes);
    FD_SET(also, &three.excepts);
    return three;
}

static void tell_select(const char *name, int found, const struct three *three, int real) {
    trace("%s: %ld, %d %d %d, %d %d %d, %d", name, outcome(found), FD_ISSET(real, &three->reads) != 0,
          FD_ISSET(ends[0], &three->reads) != 0, FD_ISSET(ends[1], &three->reads) != 0,
          FD_ISSET(real, &three->writes) != 0, FD_ISSET(ends[0], &three->writes) != 0,
          FD_ISSET(ends[1], &three->writes) != 0, FD_ISSET(ends[0], &three->excepts) != 0);
}

static void by_select(void) {
    struct timeval time = {5, 0};
    struct three three = three_of(file, ends[0], ends[1]);
    int found = select(1000, &three.reads, &three.writes, &three.excepts, NULL);
    char byte;
    tell_select("select", found, &three, file);
    write(ends[1], "x", 1);
    three = three_of(file, ends[0], file);
    found = select(1000, &three.reads, &three.writes, &three.excepts, &time);
    tell_select("with a byte", found, &three, file);
    trace("all of the time is left: %d", time.tv_sec == 4 || time.tv_sec == 5);
    three = three_of(file, ends[0], ends[1]);
    found = pselect(1000, &three.reads, &three.writes, NULL, &(struct timespec){5, 0}, NULL);
    tell_select("pselect", found, &three, file);
    read(ends[0], &byte, 1);
    three = three_of(quiet, ends[0], quiet);
    FD_CLR(quiet, &three.writes);
    time = (struct timeval){0, 0};
    found = select(1000, &three.reads, &three.writes, &three.excepts, &time);
    tell_select("no time", found, &three, quiet);
    three = three_of(quiet, ends[0], ends[1]);
    time = (struct timeval){1, 0};
    found = select(1000, &three.reads, &three.writes, &three.excepts, &time);
    tell_select("the pipe alone is ready", found, &three, quiet);
    three = three_of(closed(file), ends[0], ends[1]);
    trace("none of this number: %ld", outcome(select(1000, &three.reads, &three.writes, NULL, NULL)));
    three = three_of(file, closed(ends[0]), ends[1]);
    trace("none of that number: %ld", outcome(select(1000, &three.reads, &three.writes, NULL, NULL)));
}

static void on_signal(int signal) { (void)signal; }

/* What is ready comes before a signal that waits for its mask, else the signal. */
static void with_masks(void) {
    struct sigaction action = {.sa_handler = on_signal};
    struct pollfd files[2] = {{file, POLLIN, 0}, {ends[0], POLLIN, 0}};
    sigset_t blocked, none;
    sigemptyset(&none);
    sigemptyset(&blocked);
    sigaddset(&blocked, SIGUSR1);
    sigaction(SIGUSR1, &action, NULL);
    sigprocmask(SIG_BLOCK, &blocked, NULL);
    raise(SIGUSR1);
    tell_poll("a signal waits", ppoll(files, 2, NULL, &none), files, 2);
    sigprocmask(SIG_UNBLOCK, &blocked, NULL);
}

int main(void) {
    make();
    usleep(10000);
    by_poll();
    by_select();
    with_masks();
    return 0;
}
