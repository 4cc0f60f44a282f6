/* libev by epoll: a timer, a pipe, an async watcher that another thread wakes, and a periodic one by the time of day.
   */
#include "trace.h"

#include <ev.h>
#include <unistd.h>

static struct ev_loop *loop;
static ev_async async;
static int ends[2], ticks, wakes, turns;

static void on_read(struct ev_loop *l, ev_io *watcher, int events) {
    char bytes[64];
    ssize_t count = read(watcher->fd, bytes, sizeof bytes);
    trace("read %zd, events %d", count, events);
    if (count <= 0) ev_io_stop(l, watcher);
}

static void on_tick(struct ev_loop *l, ev_timer *watcher, int events) {
    trace("tick %d, events %d", ++ticks, events);
    if (ticks < 3) {
        if (write(ends[1], "xy", 2) != 2) trace("not written");
    } else {
        ev_timer_stop(l, watcher);
        close(ends[1]);
    }
}

static void on_wake(struct ev_loop *l, ev_async *watcher, int events) {
    trace("woken %d, events %d", ++wakes, events);
    if (wakes == 3) ev_async_stop(l, watcher);
}

static void on_period(struct ev_loop *l, ev_periodic *watcher, int events) {
    trace("period %d, events %d", ++turns, events);
    ev_periodic_stop(l, watcher);
}

static void *wake_thrice(void *nothing) {
    for (int i = 0; i < 3; i++) {
        usleep(i == 0 ? 250000 : 500000);
        ev_async_send(loop, &async);
    }
    return nothing;
}

int main(void) {
    pthread_t thread;
    ev_io input;
    ev_timer timer;
    ev_periodic period;
    loop = ev_loop_new(EVBACKEND_EPOLL);
    trace("backend %u, pipe %d", ev_backend(loop), pipe(ends));
    ev_io_init(&input, on_read, ends[0], EV_READ);
    ev_io_start(loop, &input);
    ev_timer_init(&timer, on_tick, 0.5, 0.5);
    ev_timer_start(loop, &timer);
    ev_async_init(&async, on_wake);
    ev_async_start(loop, &async);
    ev_periodic_init(&period, on_period, ev_now(loop) + 1.75, 0, NULL);
    ev_periodic_start(loop, &period);
    pthread_create(&thread, NULL, wake_thrice, NULL);
    ev_run(loop, 0);
    pthread_join(thread, NULL);
    close(ends[0]);
    ev_loop_destroy(loop);
    trace("done");
    return 0;
}
