/* Ten thousand connections: each has two ends, which one instance watches. Simulated only, with the limits of the
   kernel that check gives it; many.out is what it has to say. */
#include "trace.h"

#include <poll.h>
#include <stdlib.h>
#include <sys/epoll.h>
#include <sys/socket.h>
#include <unistd.h>

enum { MANY = 10000, AT_ONCE = 64 };

static int sides[MANY][2];

static int find_all(int instance) {
    struct epoll_event found[AT_ONCE];
    int sum = 0, count;
    while ((count = epoll_wait(instance, found, AT_ONCE, 0)) > 0)
        for (int i = 0; i < count; i++) {
            char byte;
            sum += read(found[i].data.fd, &byte, 1) == 1;
        }
    return sum;
}

static void poll_one(void) {
    struct pollfd file = {sides[MANY - 1][1], POLLIN, 0};
    if (write(sides[MANY - 1][0], "x", 1) != 1) trace("not written");
    trace("poll: %d", poll(&file, 1, -1));
    trace("events %#x", (unsigned int)file.revents);
}

int main(void) {
    int instance = epoll_create1(0), wrong = 0, pair[2];
    for (int i = 0; i < MANY; i++) {
        struct epoll_event event = {.events = EPOLLIN};
        wrong += socketpair(AF_UNIX, SOCK_STREAM | SOCK_NONBLOCK, 0, sides[i]) != 0;
        event.data.fd = sides[i][0];
        wrong += epoll_ctl(instance, EPOLL_CTL_ADD, sides[i][0], &event) != 0;
        wrong += write(sides[i][1], "x", 1) != 1;
    }
    trace("made, wrong: %d", wrong);
    trace("the last one is %d", sides[MANY - 1][1]);
    trace("found: %d", find_all(instance));
    poll_one();
    while (socketpair(AF_UNIX, SOCK_STREAM, 0, pair) == 0) continue;
    trace("full: %ld", outcome(-1));
    return 0;
}
