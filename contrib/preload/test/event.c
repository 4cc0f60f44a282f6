/* libevent by epoll: a chain of one-shot events on pipes, a pair of buffered sockets, timers, and an event that another
   thread makes active. */
#include "trace.h"

#include <event2/buffer.h>
#include <event2/bufferevent.h>
#include <event2/event.h>
#include <event2/thread.h>
#include <string.h>
#include <sys/socket.h>
#include <unistd.h>

enum { LINKS = 10 };

static struct event_base *base;
static struct event *active, *links[LINKS], *timer;
static struct bufferevent *sides[2];
static int pipes[LINKS][2], ticks, wakes;

/* Each link of the chain hands its byte to the next one. */
static void on_link(evutil_socket_t fd, short what, void *place) {
    int i = (int)(intptr_t)place;
    char byte = 0;
    ssize_t count = read(fd, &byte, 1);
    trace("link %d: %c, read %zd, events %d", i, byte, count, what);
    byte++;
    if (i + 1 < LINKS && write(pipes[i + 1][1], &byte, 1) != 1) trace("not written");
}

static void on_tick(evutil_socket_t fd, short what, void *nothing) {
    (void)fd, (void)nothing;
    trace("tick %d, events %d", ++ticks, what);
    if (ticks == 1 && write(pipes[0][1], "a", 1) != 1) trace("not written");
    if (ticks == 2) bufferevent_write(sides[0], "hello", 5);
    if (ticks == 3) event_del(timer);
}

static void on_wake(evutil_socket_t fd, short what, void *nothing) {
    (void)fd, (void)nothing;
    trace("woken %d, events %d", ++wakes, what);
}

/* The one side answers once; the other one ends both. */
static void on_bytes(struct bufferevent *side, void *name) {
    char bytes[64];
    size_t count = bufferevent_read(side, bytes, sizeof bytes);
    trace("%s has %.*s", (const char *)name, (int)count, bytes);
    if (side == sides[1]) {
        bufferevent_write(side, "answer", 6);
    } else {
        bufferevent_disable(sides[0], EV_READ);
        bufferevent_disable(sides[1], EV_READ);
    }
}

static void *wake_thrice(void *nothing) {
    for (int i = 0; i < 3; i++) {
        usleep(i == 0 ? 250000 : 500000);
        event_active(active, EV_READ, 0);
    }
    return nothing;
}

static void make_chain(void) {
    for (int i = 0; i < LINKS; i++) {
        if (pipe(pipes[i]) != 0) trace("no pipe");
        evutil_make_socket_nonblocking(pipes[i][0]);
        links[i] = event_new(base, pipes[i][0], EV_READ, on_link, (void *)(intptr_t)i);
        event_add(links[i], NULL);
    }
}

static void make_sides(void) {
    static char *const names[2] = {"left", "right"};
    evutil_socket_t ends[2];
    trace("socketpair: %d", evutil_socketpair(AF_UNIX, SOCK_STREAM, 0, ends));
    for (int i = 0; i < 2; i++) {
        evutil_make_socket_nonblocking(ends[i]);
        sides[i] = bufferevent_socket_new(base, ends[i], BEV_OPT_CLOSE_ON_FREE);
        bufferevent_setcb(sides[i], on_bytes, NULL, NULL, names[i]);
        bufferevent_enable(sides[i], EV_READ | EV_WRITE);
    }
}

static void free_all(void) {
    for (int i = 0; i < LINKS; i++) {
        event_free(links[i]);
        close(pipes[i][0]);
        close(pipes[i][1]);
    }
    for (int i = 0; i < 2; i++) bufferevent_free(sides[i]);
    event_free(timer);
    event_free(active);
    event_base_free(base);
    libevent_global_shutdown();
}

int main(void) {
    struct timeval half = {0, 500000};
    pthread_t thread;
    evthread_use_pthreads();
    base = event_base_new();
    trace("method %s", event_base_get_method(base));
    make_chain();
    make_sides();
    active = event_new(base, -1, 0, on_wake, NULL);
    timer = event_new(base, -1, EV_PERSIST, on_tick, NULL);
    event_add(timer, &half);
    pthread_create(&thread, NULL, wake_thrice, NULL);
    trace("dispatch: %d", event_base_dispatch(base));
    pthread_join(thread, NULL);
    free_all();
    return 0;
}
