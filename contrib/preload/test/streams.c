/* Streams of the C library over pipes and sockets: fdopen, and popen with a child at the other end. */
#include "trace.h"

#include <fcntl.h>
#include <poll.h>
#include <signal.h>
#include <stdlib.h>
#include <string.h>
#include <sys/socket.h>
#include <sys/wait.h>
#include <unistd.h>

/* The next line, without its end. */
static void tell_line(const char *name, FILE *in) {
    char line[64];
    if (!fgets(line, sizeof line, in)) {
        trace("%s: none", name);
        return;
    }
    line[strcspn(line, "\n")] = '\0';
    trace("%s: %s", name, line);
}

/* ---- fdopen ---- */

static void lines(void) {
    int ends[2];
    FILE *in, *out;
    pipe(ends);
    in = fdopen(ends[0], "r");
    out = fdopen(ends[1], "w");
    trace("numbers: %d %d", fileno(in) == ends[0], fileno(out) == ends[1]);
    fprintf(out, "one %d\n", 1);
    fputs("two\nthree", out);
    trace("before fflush nothing waits: %d", poll(&(struct pollfd){ends[0], POLLIN, 0}, 1, 0));
    fflush(out);
    trace("then: %d", poll(&(struct pollfd){ends[0], POLLIN, 0}, 1, 0));
    tell_line("line", in);
    tell_line("line", in);
    trace("fclose: %ld", outcome(fclose(out)));
    tell_line("the last one", in);
    trace("then: %d, end: %d, error: %d", fgetc(in), feof(in) != 0, ferror(in) != 0);
    trace("seek: %ld", outcome(fseek(in, 0, SEEK_SET)));
    trace("fclose: %ld", outcome(fclose(in)));
    trace("closed: %ld", outcome(fcntl(ends[0], F_GETFD)));
}

static void wrong(void) {
    int ends[2];
    FILE *out;
    pipe(ends);
    trace("a reader to write: %ld", fdopen(ends[0], "w") ? 0 : -(long)errno);
    trace("a writer to read: %ld", fdopen(ends[1], "r") ? 0 : -(long)errno);
    trace("no mode: %ld", fdopen(ends[1], "x") ? 0 : -(long)errno);
    out = fdopen(ends[1], "w");
    close(ends[0]);
    fputs("nobody reads", out);
    trace("no reader: %ld", outcome(fflush(out)));
    trace("error: %d", ferror(out) != 0);
    fclose(out);
    trace("no descriptor: %ld", fdopen(ends[1], "w") ? 0 : -(long)errno);
}

/* More than a pipe holds, with a reader in a thread. */
static void *count_bytes(void *given) {
    FILE *in = given;
    static char bytes[3000];
    size_t got;
    long sum = 0;
    while ((got = fread(bytes, 1, sizeof bytes, in)) > 0) sum += (long)got;
    return (void *)sum;
}

static void much(void) {
    static char bytes[300000];
    int ends[2];
    FILE *in, *out;
    pthread_t reader;
    void *sum;
    pipe(ends);
    in = fdopen(ends[0], "r");
    out = fdopen(ends[1], "w");
    pthread_create(&reader, NULL, count_bytes, in);
    trace("fwrite: %zu", fwrite(bytes, 1, sizeof bytes, out));
    fclose(out);
    pthread_join(reader, &sum);
    trace("read: %ld", (long)sum);
    fclose(in);
}

static void both_ways(void) {
    int sides[2];
    FILE *first, *second;
    socketpair(AF_UNIX, SOCK_STREAM, 0, sides);
    first = fdopen(sides[0], "r+");
    second = fdopen(sides[1], "w+");
    fputs("question\n", first);
    fflush(first);
    tell_line("the second", second);
    fputs("answer\n", second);
    fflush(second);
    tell_line("the first", first);
    fclose(first);
    trace("the end: %d", fgetc(second));
    fclose(second);
}

/* ---- popen ---- */

static void tell_end(const char *name, int status) {
    if (status < 0) {
        trace("%s: %ld", name, outcome(status));
    } else {
        trace("%s: %d, by signal %d", name, WIFEXITED(status) ? WEXITSTATUS(status) : -1,
              WIFSIGNALED(status) ? WTERMSIG(status) : 0);
    }
}

static void from_child(void) {
    FILE *stream = popen("echo one; sleep 0.1; echo two; exit 7", "r");
    trace("closes on exec: %d", fcntl(fileno(stream), F_GETFD));
    for (int i = 0; i < 3; i++) tell_line("from the child", stream);
    tell_end("pclose", pclose(stream));
    stream = popen("kill -TERM $$", "re");
    trace("closes on exec: %d", fcntl(fileno(stream), F_GETFD));
    tell_end("killed", pclose(stream));
    stream = popen("no-such-program-at-all 2>/dev/null", "r");
    trace("nothing: %d", fgetc(stream));
    tell_end("no program", pclose(stream));
}

/* What the child writes goes to the pipe that this program reads. */
static void to_child(void) {
    char command[64];
    int ends[2];
    FILE *stream, *in;
    pipe(ends);
    in = fdopen(ends[0], "r");
    snprintf(command, sizeof command, "tr a-z A-Z >/proc/self/fd/%d", ends[1]);
    stream = popen(command, "w");
    close(ends[1]);
    fprintf(stream, "in small letters\n");
    tell_end("tr", pclose(stream));
    tell_line("from tr", in);
    trace("then: %d", fgetc(in));
    fclose(in);
}

/* A second child hasn't the end of the first one: else cat would never hear of its end. */
static void two_at_once(void) {
    FILE *first = popen("cat >/dev/null; exit 5", "w"), *second = popen("cat >/dev/null; exit 6", "w");
    fputs("bytes", first);
    fputs("bytes", second);
    tell_end("the first one", pclose(first));
    tell_end("the second one", pclose(second));
}

static void wrong_modes(void) {
    trace("no mode: %ld", popen("true", "") ? 0 : -(long)errno);
    trace("both: %ld", popen("true", "rw") ? 0 : -(long)errno);
    trace("another one: %ld", popen("true", "a") ? 0 : -(long)errno);
}

/* popen of a child that is a copy of this program. */
static void in_child(void) {
    int status = -1;
    fflush(stdout);
    if (fork() == 0) {
        FILE *stream = popen("echo of a child of a child; exit 3", "r");
        char line[64] = "";
        bool is_right = stream && fgets(line, sizeof line, stream) && strcmp(line, "of a child of a child\n") == 0;
        _exit(is_right && pclose(stream) == 3 << 8 ? 4 : 1);
    }
    wait(&status);
    tell_end("in a child", status);
}

int main(void) {
    signal(SIGPIPE, SIG_IGN);
    trace("begins");
    usleep(10000);
    lines();
    wrong();
    much();
    both_ways();
    from_child();
    to_child();
    two_at_once();
    wrong_modes();
    in_child();
    return 0;
}
