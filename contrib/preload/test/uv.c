/* libuv: a timer, a pipe, an async handle that another thread wakes, and work in the pool of threads. */
#include "trace.h"

#include <stdlib.h>
#include <string.h>
#include <uv.h>

static uv_loop_t loop;
static uv_pipe_t reader, writer;
static uv_timer_t timer;
static uv_async_t async;
static uv_write_t request;
static int ticks, wakes;

static void find_room(uv_handle_t *handle, size_t wish, uv_buf_t *room) {
    static char bytes[4096];
    (void)handle, (void)wish;
    *room = uv_buf_init(bytes, sizeof bytes);
}

static void on_read(uv_stream_t *stream, ssize_t count, const uv_buf_t *bytes) {
    if (count >= 0) {
        trace("read %zd: %.*s", count, (int)count, bytes->base);
    } else {
        trace("read: %s", uv_err_name((int)count));
        uv_close((uv_handle_t *)stream, NULL);
    }
}

static void on_written(uv_write_t *done, int status) {
    (void)done;
    trace("written: %d", status);
}

static void on_tick(uv_timer_t *handle) {
    uv_buf_t bytes = uv_buf_init("tick", 4);
    trace("tick %d", ++ticks);
    if (ticks < 3) {
        uv_write(&request, (uv_stream_t *)&writer, &bytes, 1, on_written);
    } else {
        uv_close((uv_handle_t *)handle, NULL);
        uv_close((uv_handle_t *)&writer, NULL);
    }
}

static void on_wake(uv_async_t *handle) {
    trace("woken %d", ++wakes);
    if (wakes == 3) uv_close((uv_handle_t *)handle, NULL);
}

static void wake_thrice(void *nothing) {
    (void)nothing;
    for (int i = 0; i < 3; i++) {
        uv_sleep(i == 0 ? 250 : 500);
        uv_async_send(&async);
    }
}

static void work(uv_work_t *work) { *(int *)work->data = 6 * 7; }

static void on_worked(uv_work_t *work, int status) { trace("work: %d, status %d", *(int *)work->data, status); }

int main(void) {
    uv_work_t job;
    uv_thread_t thread;
    int ends[2], made = 0;
    uv_loop_init(&loop);
    trace("pipe: %d", uv_pipe(ends, 0, 0));
    uv_pipe_init(&loop, &reader, 0);
    uv_pipe_init(&loop, &writer, 0);
    trace("open: %d, %d", uv_pipe_open(&reader, ends[0]), uv_pipe_open(&writer, ends[1]));
    uv_read_start((uv_stream_t *)&reader, find_room, on_read);
    uv_timer_init(&loop, &timer);
    uv_timer_start(&timer, on_tick, 500, 500);
    uv_async_init(&loop, &async, on_wake);
    job.data = &made;
    uv_queue_work(&loop, &job, work, on_worked);
    uv_thread_create(&thread, wake_thrice, NULL);
    trace("run: %d", uv_run(&loop, UV_RUN_DEFAULT));
    uv_thread_join(&thread);
    trace("close: %d", uv_loop_close(&loop));
    uv_library_shutdown();
    return 0;
}
