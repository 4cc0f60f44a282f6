/* GLib: children that answer over pipes, that sleep and are killed, and that can't be run. Pidfds tell their ends. */
#include "trace.h"

#include <gio/gio.h>
#include <signal.h>
#include <string.h>
#include <sys/wait.h>

enum { MUCH = 1 << 20 };

static GMainLoop *loop;
static int awaited; // what is still to come before the loop ends
static int status;
static GString *text;

static void come(void) {
    if (--awaited == 0) g_main_loop_quit(loop);
}

static void run_until(int count) {
    awaited = count;
    g_main_loop_run(loop);
}

static void on_end(GPid child, int how, void *data) {
    (void)data;
    status = how;
    g_spawn_close_pid(child);
    come();
}

static gboolean on_bytes(GIOChannel *channel, GIOCondition condition, void *data) {
    char bytes[100];
    gsize count = 0;
    (void)condition, (void)data;
    if (g_io_channel_read_chars(channel, bytes, sizeof bytes, &count, NULL) == G_IO_STATUS_NORMAL) {
        g_string_append_len(text, bytes, (gssize)count);
        return G_SOURCE_CONTINUE;
    }
    come();
    return G_SOURCE_REMOVE;
}

static gboolean on_time(void *child) {
    trace("it sleeps");
    trace("killed: %ld", outcome(kill(*(GPid *)child, SIGTERM)));
    return G_SOURCE_REMOVE;
}

/* Its number, and its streams, if they are asked for; 0 if it can't be run. */
static GPid spawn(char *words[], int *in, int *out) {
    GError *error = NULL;
    GPid child = 0;
    if (!g_spawn_async_with_pipes(NULL, words, NULL, G_SPAWN_SEARCH_PATH | G_SPAWN_DO_NOT_REAP_CHILD, NULL, NULL,
                                  &child, in, out, NULL, &error)) {
        trace("not run: %d", error->code == G_SPAWN_ERROR_NOENT);
        g_error_free(error);
        return 0;
    }
    g_child_watch_add(child, on_end, NULL);
    return child;
}

static void watch(int descriptor) {
    GIOChannel *channel = g_io_channel_unix_new(descriptor);
    g_io_channel_set_encoding(channel, NULL, NULL);
    g_io_channel_set_buffered(channel, FALSE);
    g_io_channel_set_flags(channel, G_IO_FLAG_NONBLOCK, NULL);
    g_io_channel_set_close_on_unref(channel, TRUE);
    g_io_add_watch(channel, G_IO_IN | G_IO_HUP, on_bytes, NULL);
    g_io_channel_unref(channel);
}

static void converse(void) {
    int in, out;
    g_string_truncate(text, 0);
    spawn((char *[]){"cat", NULL}, &in, &out);
    watch(out);
    trace("written: %ld", outcome(write(in, "for cat\n", 8)));
    trace("closed: %ld", outcome(close(in)));
    run_until(2);
    trace("cat: %s, status %d", g_strchomp(text->str), WEXITSTATUS(status));
}

static void echo(void) {
    int out;
    g_string_truncate(text, 0);
    spawn((char *[]){"sh", "-c", "echo echo; exit 6", NULL}, NULL, &out);
    watch(out);
    run_until(2);
    trace("echo: %s, status %d", g_strchomp(text->str), WEXITSTATUS(status));
}

static void sleeper(void) {
    GPid child = spawn((char *[]){"sleep", "100", NULL}, NULL, NULL);
    g_timeout_add(200, on_time, &child);
    run_until(1);
    trace("signal %d", WTERMSIG(status));
}

static void on_answer(GObject *child, GAsyncResult *result, void *data) {
    GBytes *answer = NULL;
    (void)data;
    trace("communicated: %d", g_subprocess_communicate_finish(G_SUBPROCESS(child), result, &answer, NULL, NULL));
    trace("%zu bytes, ended well: %d", g_bytes_get_size(answer), g_subprocess_get_successful(G_SUBPROCESS(child)));
    g_bytes_unref(answer);
    come();
}

static void much(void) {
    GSubprocess *child = g_subprocess_new(G_SUBPROCESS_FLAGS_STDIN_PIPE | G_SUBPROCESS_FLAGS_STDOUT_PIPE, NULL, "cat",
                                          NULL);
    GBytes *bytes = g_bytes_new_take(g_malloc0(MUCH), MUCH);
    g_subprocess_communicate_async(child, bytes, NULL, on_answer, NULL);
    run_until(1);
    g_bytes_unref(bytes);
    g_object_unref(child);
}

static void wait_for_one(void) {
    char *out = NULL;
    int how = 0;
    trace("waited for: %d", g_spawn_command_line_sync("echo at once", &out, NULL, &how, NULL));
    trace("%s, status %d", g_strchomp(out), WEXITSTATUS(how));
    g_free(out);
}

int main(void) {
    trace("begin");
    loop = g_main_loop_new(NULL, FALSE);
    text = g_string_new(NULL);
    converse();
    echo();
    sleeper();
    much();
    wait_for_one();
    trace("missing: %d", spawn((char *[]){"no-such-program", NULL}, NULL, NULL));
    g_string_free(text, TRUE);
    g_main_loop_unref(loop);
    return 0;
}
