/* libuv: children whose 0 and 1 are its pipes, which answer, which sleep and are killed, and which can't be run. */
#include "trace.h"

#include <signal.h>
#include <stdlib.h>
#include <string.h>
#include <uv.h>

static uv_loop_t loop;
static uv_pipe_t in, out;
static uv_process_t child;
static uv_timer_t timer;
static uv_write_t request;
static uv_shutdown_t end;

static void find_room(uv_handle_t *handle, size_t wish, uv_buf_t *room) {
    static char bytes[4096];
    (void)handle, (void)wish;
    *room = uv_buf_init(bytes, sizeof bytes);
}

static void on_end(uv_process_t *process, int64_t status, int signal) {
    trace("ended: %d, signal %d", (int)status, signal);
    uv_close((uv_handle_t *)process, NULL);
}

static void on_read(uv_stream_t *stream, ssize_t count, const uv_buf_t *bytes) {
    if (count >= 0) {
        trace("read %zd: %.*s", count, (int)count - 1, bytes->base);
    } else {
        trace("read: %s", uv_err_name((int)count));
        uv_close((uv_handle_t *)stream, NULL);
    }
}

static void on_shut(uv_shutdown_t *done, int status) {
    trace("shut: %d", status);
    uv_close((uv_handle_t *)done->handle, NULL);
}

static void on_timer(uv_timer_t *handle) {
    trace("it sleeps");
    trace("killed: %d", uv_process_get_pid(&child) > 0 ? uv_process_kill(&child, SIGTERM) : -1);
    uv_close((uv_handle_t *)handle, NULL);
}

static int spawn(char *words[], bool has_pipes) {
    uv_stdio_container_t files[3] = {{.flags = UV_IGNORE}, {.flags = UV_IGNORE}, {.flags = UV_IGNORE}};
    uv_process_options_t options = {.exit_cb = on_end, .file = words[0], .args = words, .stdio = files,
                                    .stdio_count = 3};
    if (has_pipes) {
        files[0].flags = UV_CREATE_PIPE | UV_READABLE_PIPE;
        files[0].data.stream = (uv_stream_t *)&in;
        files[1].flags = UV_CREATE_PIPE | UV_WRITABLE_PIPE;
        files[1].data.stream = (uv_stream_t *)&out;
    }
    return uv_spawn(&loop, &child, &options);
}

static void begin_pipes(void) {
    uv_pipe_init(&loop, &in, 0);
    uv_pipe_init(&loop, &out, 0);
}

static void converse(void) {
    uv_buf_t bytes = uv_buf_init("for cat\n", 8);
    begin_pipes();
    trace("cat: %d", spawn((char *[]){"cat", NULL}, true));
    uv_read_start((uv_stream_t *)&out, find_room, on_read);
    uv_write(&request, (uv_stream_t *)&in, &bytes, 1, NULL);
    uv_shutdown(&end, (uv_stream_t *)&in, on_shut);
    uv_run(&loop, UV_RUN_DEFAULT);
}

static void echo(void) {
    begin_pipes();
    trace("echo: %d", spawn((char *[]){"sh", "-c", "echo echo; exit 6", NULL}, true));
    uv_read_start((uv_stream_t *)&out, find_room, on_read);
    uv_close((uv_handle_t *)&in, NULL);
    uv_run(&loop, UV_RUN_DEFAULT);
}

static void sleeper(void) {
    trace("sleep: %d", spawn((char *[]){"sleep", "100", NULL}, false));
    uv_timer_init(&loop, &timer);
    uv_timer_start(&timer, on_timer, 200, 0);
    uv_run(&loop, UV_RUN_DEFAULT);
}

static void missing(void) {
    trace("no program: %s", uv_err_name(spawn((char *[]){"no-such-program", NULL}, false)));
    uv_close((uv_handle_t *)&child, NULL);
    uv_run(&loop, UV_RUN_DEFAULT);
}

int main(void) {
    trace("begin");
    uv_loop_init(&loop);
    converse();
    echo();
    sleeper();
    missing();
    trace("closed: %d", uv_loop_close(&loop));
    return 0;
}
