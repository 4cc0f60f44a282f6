/* sendfile and splice between a real file and a pipe or socket, and between pipes and sockets. */
#include "trace.h"

#include <fcntl.h>
#include <signal.h>
#include <stdlib.h>
#include <string.h>
#include <sys/sendfile.h>
#include <sys/socket.h>
#include <sys/types.h>
#include <unistd.h>

enum { SIZE = 200000 };

static char bytes[SIZE], got[SIZE + 1];
static int ends[2], sides[2];

static int make_file(size_t size) {
    char name[] = "/tmp/nippersage-splice-XXXXXX";
    int fd = mkstemp(name);
    unlink(name);
    if (write(fd, bytes, size) != (ssize_t)size) trace("no file");
    lseek(fd, 0, SEEK_SET);
    return fd;
}

static void open_all(void) {
    if (pipe(ends) != 0 || socketpair(AF_UNIX, SOCK_STREAM, 0, sides) != 0) trace("no pipe");
}

static void close_all(void) {
    for (int i = 0; i < 2; i++) {
        close(ends[i]);
        close(sides[i]);
    }
}

struct reader {
    int fd;
    size_t count;
    bool is_right;
};

static void *read_all(void *given) {
    struct reader *reader = given;
    ssize_t some;
    usleep(50000);
    while ((some = read(reader->fd, got + reader->count, SIZE - reader->count + 1)) > 0) reader->count += (size_t)some;
    reader->is_right = memcmp(got, bytes, reader->count) == 0;
    return NULL;
}

/* Linux may send a part only. */
static long send_rest(int to, int file) {
    long sum = 0;
    ssize_t sent;
    while ((sent = sendfile(to, file, NULL, SIZE)) > 0) sum += sent;
    return sent < 0 ? outcome(sent) : sum;
}

/* More than there is room for. */
static void send_file(bool to_pipe) {
    struct reader reader = {to_pipe ? ends[0] : sides[0], 0, false};
    int file = make_file(SIZE), to = to_pipe ? ends[1] : sides[1];
    off_t at = 1000;
    pthread_t thread;
    trace("sendfile: %ld", outcome(sendfile(to, file, NULL, 1000)));
    trace("at: %ld", (long)lseek(file, 0, SEEK_CUR));
    pthread_create(&thread, NULL, read_all, &reader);
    trace("from a place: %ld", outcome(sendfile(to, file, &at, 2000)));
    trace("at: %ld, %ld", (long)at, (long)lseek(file, 0, SEEK_CUR));
    at = 3000;
    lseek(file, 3000, SEEK_SET);
    trace("the rest: %ld", send_rest(to, file));
    close(to);
    pthread_join(thread, NULL);
    trace("read: %zu, right: %d", reader.count, reader.is_right);
    close(file);
}

static void without_waiting(void) {
    int file = make_file(SIZE);
    fcntl(sides[1], F_SETFL, O_NONBLOCK);
    fcntl(ends[1], F_SETFL, O_NONBLOCK);
    trace("nothing to splice: %ld", outcome(splice(ends[0], NULL, sides[0], NULL, 100, SPLICE_F_NONBLOCK)));
    trace("to a pipe: %ld", outcome(sendfile(ends[1], file, NULL, SIZE)));
    trace("and once more: %ld", outcome(sendfile(ends[1], file, NULL, SIZE)));
    trace("spliced: %ld", outcome(splice(file, NULL, ends[1], NULL, 100, SPLICE_F_NONBLOCK)));
    trace("some to a socket: %d", sendfile(sides[1], file, NULL, SIZE) > 0);
    close(file);
}

static void to_files(void) {
    int from = make_file(5000), to = make_file(0);
    loff_t at = 100, onto = 10;
    trace("file to pipe: %ld", outcome(splice(from, NULL, ends[1], NULL, 300, 0)));
    trace("from a place: %ld", outcome(splice(from, &at, ends[1], NULL, 50, 0)));
    trace("at: %ld, %ld", (long)at, (long)lseek(from, 0, SEEK_CUR));
    trace("pipe to file: %ld", outcome(splice(ends[0], NULL, to, NULL, 200, 0)));
    trace("to a place: %ld", outcome(splice(ends[0], NULL, to, &onto, 1000, 0)));
    trace("onto: %ld, %ld", (long)onto, (long)lseek(to, 0, SEEK_END));
    trace("read: %zd", pread(to, got, sizeof got, 0));
    trace("right: %d", memcmp(got, bytes, 10) == 0 && memcmp(got + 10, bytes + 200, 100) == 0 &&
                           memcmp(got + 110, bytes + 100, 50) == 0);
    close(from);
    close(to);
}

static void between(void) {
    int others[2], many[2];
    loff_t at = 0;
    ssize_t count;
    if (pipe(others) != 0 || socketpair(AF_UNIX, SOCK_STREAM, 0, many) != 0) trace("no pipe");
    if (write(sides[0], "from a socket", 13) != 13) trace("not written");
    trace("socket to pipe: %ld", outcome(splice(sides[1], NULL, ends[1], NULL, 100, 0)));
    trace("pipe to pipe: %ld", outcome(splice(ends[0], NULL, others[1], NULL, 6, 0)));
    trace("pipe to socket: %ld", outcome(splice(ends[0], NULL, many[0], NULL, 100, 0)));
    trace("pipe to socket: %ld", outcome(splice(others[0], NULL, many[0], NULL, 100, 0)));
    count = read(many[1], got, sizeof got);
    trace("read: %.*s", (int)count, got);
    trace("no pipe: %ld", outcome(splice(sides[1], NULL, many[0], NULL, 100, 0)));
    trace("the same pipe: %ld", outcome(splice(ends[0], NULL, ends[1], NULL, 100, 0)));
    trace("a place of a pipe: %ld", outcome(splice(ends[0], &at, many[0], NULL, 100, 0)));
    trace("the wrong end: %ld", outcome(splice(ends[1], NULL, many[0], NULL, 100, 0)));
    close(others[1]);
    trace("end: %ld", outcome(splice(others[0], NULL, many[0], NULL, 100, 0)));
    close(others[0]);
    for (int i = 0; i < 2; i++) close(many[i]);
}

static void *write_late(void *nothing) {
    usleep(100000);
    if (write(ends[1], "late", 4) != 4) trace("not written");
    return nothing;
}

/* A splice waits for bytes. */
static void waits(void) {
    pthread_t thread;
    pthread_create(&thread, NULL, write_late, NULL);
    trace("waited: %ld", outcome(splice(ends[0], NULL, sides[1], NULL, 100, 0)));
    pthread_join(thread, NULL);
    trace("read: %zd", read(sides[0], got, sizeof got));
}

int main(void) {
    signal(SIGPIPE, SIG_IGN);
    for (int i = 0; i < SIZE; i++) bytes[i] = (char)(i * 7 + i / 251);
    for (int i = 0; i < 2; i++) {
        open_all();
        send_file(i == 0);
        close_all();
    }
    open_all();
    without_waiting();
    close_all();
    open_all();
    to_files();
    between();
    waits();
    close_all();
    return 0;
}
