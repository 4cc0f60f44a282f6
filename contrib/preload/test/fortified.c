/* Calls by the names that the C library has for programs that were compiled with _FORTIFY_SOURCE, for large files, and
   for itself. Each does on a simulated descriptor what it does on a real one. */
#include "trace.h"

#include <fcntl.h>
#include <poll.h>
#include <signal.h>
#include <stdarg.h>
#include <stdlib.h>
#include <string.h>
#include <sys/select.h>
#include <sys/socket.h>
#include <sys/stat.h>
#include <sys/uio.h>
#include <unistd.h>

int __ppoll_chk(struct pollfd *files, nfds_t count, const struct timespec *time, const sigset_t *mask, size_t room);
int __poll_chk(struct pollfd *files, nfds_t count, int timeout, size_t room);
ssize_t __recv_chk(int fd, void *to, size_t count, size_t room, int flags);
ssize_t __recvfrom_chk(int fd, void *to, size_t count, size_t room, int flags, struct sockaddr *from, socklen_t *size);
ssize_t __read_chk(int fd, void *to, size_t count, size_t room);
ssize_t __pread_chk(int fd, void *to, size_t count, off_t at, size_t room);
ssize_t __pread64_chk(int fd, void *to, size_t count, off64_t at, size_t room);
ssize_t __readlink_chk(const char *path, char *to, size_t count, size_t room);
ssize_t __readlinkat_chk(int folder, const char *path, char *to, size_t count, size_t room);
int __dprintf_chk(int fd, int check, const char *format, ...);
int __vdprintf_chk(int fd, int check, const char *format, va_list arguments);
int __fxstat(int version, int fd, struct stat *status);
ssize_t __read(int fd, void *to, size_t count);
ssize_t __write(int fd, const void *from, size_t count);
int __close(int fd);
int __pipe(int ends[2]);
int __poll(struct pollfd *files, nfds_t count, int timeout);
int __select(int most, fd_set *reads, fd_set *writes, fd_set *excepts, struct timeval *time);
ssize_t __send(int fd, const void *from, size_t count, int flags);
int __fcntl(int fd, int command, ...);

static char room[20000];

/* What a call answers, and what it read. */
static void tell(const char *call, long result) {
    trace("%s: %ld %.*s", call, outcome(result), result > 0 && result < 40 ? (int)result : 0, room);
    memset(room, 0, sizeof room);
}

static void waits(const int ends[2]) {
    struct pollfd files[2] = {{ends[0], POLLIN, 0}, {ends[1], POLLOUT, 0}};
    struct timespec none = {0, 0}, later = {0, 30000000};
    struct timeval short_none = {0, 0};
    fd_set reads;
    tell("__ppoll_chk", __ppoll_chk(files, 2, &none, NULL, sizeof files));
    trace("of them: %#x %#x", files[0].revents, files[1].revents);
    tell("__ppoll_chk, later", __ppoll_chk(files, 1, &later, NULL, sizeof files));
    tell("__poll_chk", __poll_chk(files, 2, 0, sizeof files));
    tell("__poll", __poll(files, 2, 0));
    trace("of them: %#x %#x", files[0].revents, files[1].revents);
    if (ends[0] >= FD_SETSIZE) return;
    FD_ZERO(&reads);
    FD_SET(ends[0], &reads);
    tell("__select", __select(ends[0] + 1, &reads, NULL, NULL, &short_none));
}

static int print_chk(int fd, const char *format, ...) {
    va_list arguments;
    int written;
    va_start(arguments, format);
    written = __vdprintf_chk(fd, 1, format, arguments);
    va_end(arguments);
    return written;
}

static int print(int fd, const char *format, ...) {
    va_list arguments;
    int written;
    va_start(arguments, format);
    written = vdprintf(fd, format, arguments);
    va_end(arguments);
    return written;
}

static void lines(int ends[2]) {
    tell("dprintf", dprintf(ends[1], "%d %s.", 42, "bytes"));
    tell("__dprintf_chk", __dprintf_chk(ends[1], 1, "%s-%c.", "more", 'x'));
    tell("vdprintf", print(ends[1], "%5.2f.", 2.5));
    tell("__vdprintf_chk", print_chk(ends[1], "%04x.", 255));
    tell("nothing", dprintf(ends[1], "%s", ""));
    tell("__read_chk", __read_chk(ends[0], room, sizeof room, sizeof room));
    tell("a long line", dprintf(ends[1], "%12000d", 7));
    tell("read", read(ends[0], room, sizeof room));
    close(ends[0]);
    tell("nobody reads", dprintf(ends[1], "lost"));
    tell("to a reader", dprintf(ends[0], "lost"));
}

/* What has no place of its own. The shim has a line for most of these, which the real kernel hasn't. */
static void places(int fd) {
    struct iovec vector = {room, 8};
    char target[8];
    int kept = dup(2), nowhere = open("/dev/null", O_WRONLY);
    dup2(nowhere, 2);
    tell("pread64", pread64(fd, room, 4, 0));
    tell("pwrite64", pwrite64(fd, room, 4, 0));
    tell("__pread_chk", __pread_chk(fd, room, 4, 0, sizeof room));
    tell("__pread64_chk", __pread64_chk(fd, room, 4, 0, sizeof room));
    tell("preadv64", preadv64(fd, &vector, 1, 0));
    tell("pwritev64", pwritev64(fd, &vector, 1, 0));
    tell("preadv2 at a place", preadv2(fd, &vector, 1, 0, 0));
    tell("pwritev2", pwritev2(fd, &(struct iovec){"here", 4}, 1, -1, 0));
    tell("ftruncate64", ftruncate64(fd, 10));
    tell("__readlink_chk", __readlink_chk("/nowhere", target, sizeof target, sizeof target));
    tell("__readlinkat_chk", __readlinkat_chk(AT_FDCWD, "/nowhere", target, sizeof target, sizeof target));
    dup2(kept, 2);
    close(kept);
    close(nowhere);
}

static void sockets(void) {
    struct iovec vector = {room, 8};
    struct stat status;
    int sides[2];
    tell("socketpair", socketpair(AF_UNIX, SOCK_STREAM, 0, sides));
    places(sides[0]);
    tell("preadv2", preadv2(sides[1], &vector, 1, -1, 0));
    tell("__send", __send(sides[0], "abcdef", 6, 0));
    tell("__recv_chk", __recv_chk(sides[1], room, 2, sizeof room, 0));
    tell("__recvfrom_chk, a look", __recvfrom_chk(sides[1], room, 2, sizeof room, MSG_PEEK, NULL, NULL));
    tell("__recvfrom_chk", __recvfrom_chk(sides[1], room, 2, sizeof room, 0, NULL, NULL));
    tell("__read", __read(sides[1], room, 8));
    tell("__write", __write(sides[1], "back", 4));
    tell("read", read(sides[0], room, 8));
    tell("__fcntl", __fcntl(sides[0], F_SETFL, O_NONBLOCK));
    tell("__recv_chk of nothing", __recv_chk(sides[0], room, 2, sizeof room, 0));
    tell("__fxstat", __fxstat(1, sides[0], &status));
    trace("it is a socket: %d", S_ISSOCK(status.st_mode));
    tell("__close", __close(sides[0]));
    tell("the end", __read(sides[1], room, 8));
    tell("__close again", __close(sides[0]));
}

int main(void) {
    int ends[2], others[2];
    signal(SIGPIPE, SIG_IGN);
    tell("__pipe", __pipe(others));
    tell("write", write(others[1], "by pipe", 7));
    tell("__read", __read(others[0], room, 8));
    tell("pipe", pipe(ends));
    waits(ends);
    lines(ends);
    sockets();
    return 0;
}
