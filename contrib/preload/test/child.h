/* What the tests of children do to one. */
#ifndef CHILD_H
#define CHILD_H

#include <fcntl.h>
#include <poll.h>
#include <signal.h>
#include <stdlib.h>
#include <sys/wait.h>
#include <unistd.h>

/* Not to everybody, if there is no child. */
static inline void send_to(pid_t child, int signal) {
    if (child > 0) kill(child, signal);
}

/* How a child ended: its status, or minus the signal. */
static inline int end_of(pid_t child) {
    int status = 0;
    if (waitpid(child, &status, 0) != child) return -1000;
    return WIFEXITED(status) ? WEXITSTATUS(status) : -WTERMSIG(status);
}

/* How many bytes came back from a child, and how many of them aren't those that it was given. */
struct passed {
    size_t came, wrong;
};

/* Writes so many bytes to a child, and reads what it gives back meanwhile, up to its end. Both ends are closed then. */
static inline struct passed pass_through(int to, int from, size_t all) {
    char *bytes = malloc(all), room[5000];
    struct passed passed = {0, 0};
    size_t written = 0;
    for (size_t i = 0; i < all; i++) bytes[i] = (char)(i % 251);
    fcntl(to, F_SETFL, O_NONBLOCK);
    for (ssize_t got = 1; got > 0;) {
        struct pollfd files[2] = {{from, POLLIN, 0}, {written < all ? to : -1, POLLOUT, 0}};
        poll(files, 2, -1);
        if (files[1].revents) {
            ssize_t taken = write(to, bytes + written, all - written);
            if (taken > 0) written += (size_t)taken;
            if (written == all) close(to);
        }
        if (!files[0].revents) continue;
        got = read(from, room, sizeof room);
        for (ssize_t i = 0; i < got; i++, passed.came++)
            passed.wrong += passed.came >= all || room[i] != bytes[passed.came];
    }
    close(from);
    free(bytes);
    return passed;
}

#endif
