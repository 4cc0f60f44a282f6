/* Other names of functions that the shim stands in for. The C library has them for programs that were compiled with
   _FORTIFY_SOURCE (__NAME_chk), for large files (NAME64) and for itself (__NAME), and a program may call any of them.
   Each does what the plain one does. test/names compares them with the C library's. */
#include "preload.h"

#include <limits.h>
#include <poll.h>
#include <stdarg.h>
#include <stdio.h>
#include <stdlib.h>
#include <sched.h>
#include <sys/select.h>
#include <sys/socket.h>
#include <sys/stat.h>
#include <sys/uio.h>
#include <sys/wait.h>

FORWARD(preadv2)
FORWARD(pwritev2)
FORWARD(vdprintf)

/* Tells of an overflow, and ends the program, as the C library's own do. */
_Noreturn void __chk_fail(void);

/* NAME is what PLAIN is. */
#define SAME(result, name, parameters, plain, arguments) \
    result name parameters;                              \
    result name parameters { return plain arguments; }

/* ---- for itself ---- */

SAME(ssize_t, __read, (int fd, void *to, size_t count), read, (fd, to, count))
SAME(ssize_t, __write, (int fd, const void *from, size_t count), write, (fd, from, count))
SAME(int, __close, (int fd), close, (fd))
SAME(int, __dup2, (int fd, int to), dup2, (fd, to))
SAME(int, __pipe, (int ends[2]), pipe, (ends))
SAME(off64_t, __lseek, (int fd, off64_t offset, int whence), lseek, (fd, offset, whence))
SAME(off64_t, llseek, (int fd, off64_t offset, int whence), lseek, (fd, offset, whence))
SAME(int, __connect, (int fd, const struct sockaddr *to, socklen_t size), connect, (fd, to, size))
SAME(ssize_t, __send, (int fd, const void *from, size_t count, int flags), send, (fd, from, count, flags))
SAME(int, __poll, (struct pollfd *files, nfds_t count, int timeout), poll, (files, count, timeout))
SAME(int, __select, (int most, fd_set *reads, fd_set *writes, fd_set *excepts, struct timeval *time), select,
     (most, reads, writes, excepts, time))
SAME(int, __nanosleep, (const struct timespec *time, struct timespec *left), nanosleep, (time, left))
SAME(int, __gettimeofday, (struct timeval *time, void *zone), gettimeofday, (time, zone))
SAME(int, __sigaction, (int signal, const struct sigaction *given, struct sigaction *before), sigaction,
     (signal, given, before))
SAME(int, __sigsuspend, (const sigset_t *set), sigsuspend, (set))
SAME(long, __sysconf, (int name), sysconf, (name))
SAME(pid_t, __fork, (void), fork, ())
SAME(pid_t, __vfork, (void), fork, ())
SAME(pid_t, __wait, (int *status), wait, (status))
SAME(pid_t, __waitpid, (pid_t pid, int *status, int options), waitpid, (pid, status, options))
SAME(FILE *, _IO_fopen, (const char *path, const char *mode), fopen, (path, mode))
SAME(FILE *, _IO_fdopen, (int fd, const char *mode), fdopen, (fd, mode))
SAME(FILE *, _IO_popen, (const char *command, const char *mode), popen, (command, mode))

int __clone(int (*run)(void *), void *stack, int flags, void *argument, ...);
int __clone(int (*run)(void *), void *stack, int flags, void *argument, ...) {
    return clone(run, stack, flags, argument);
}

/* open and fcntl leave alone what they don't need. */
int __open(const char *path, int flags, ...);
int __open(const char *path, int flags, ...) {
    va_list arguments;
    mode_t mode;
    va_start(arguments, flags);
    mode = __OPEN_NEEDS_MODE(flags) ? va_arg(arguments, mode_t) : 0;
    va_end(arguments);
    return open(path, flags, mode);
}

int __open64(const char *path, int flags, ...) __attribute__((alias("__open")));

int __fcntl(int fd, int command, ...);
int __fcntl(int fd, int command, ...) {
    va_list arguments;
    long argument;
    va_start(arguments, command);
    argument = va_arg(arguments, long);
    va_end(arguments);
    return fcntl(fd, command, argument);
}

/* What fstat was before glibc 2.33. */
int __fxstat(int version, int fd, struct stat *status);
int __fxstat(int version, int fd, struct stat *status) {
    if (version == 0 || version == 1) return fstat(fd, status);
    errno = EINVAL;
    return -1;
}

int __fxstat64(int version, int fd, struct stat64 *status);
int __fxstat64(int version, int fd, struct stat64 *status) {
    return __fxstat(version, fd, (struct stat *)(void *)status);
}

/* ---- for large files: on x86-64 there is one size of files ---- */

SAME(ssize_t, pread64, (int fd, void *to, size_t count, off64_t at), pread, (fd, to, count, at))
SAME(ssize_t, pwrite64, (int fd, const void *from, size_t count, off64_t at), pwrite, (fd, from, count, at))
SAME(ssize_t, __pread64, (int fd, void *to, size_t count, off64_t at), pread, (fd, to, count, at))
SAME(ssize_t, __pwrite64, (int fd, const void *from, size_t count, off64_t at), pwrite, (fd, from, count, at))
SAME(ssize_t, preadv64, (int fd, const struct iovec *to, int count, off64_t at), preadv, (fd, to, count, at))
SAME(ssize_t, pwritev64, (int fd, const struct iovec *from, int count, off64_t at), pwritev, (fd, from, count, at))
SAME(int, ftruncate64, (int fd, off64_t size), ftruncate, (fd, size))

/* At -1 these are readv and writev. */
ssize_t preadv2(int fd, const struct iovec *to, int count, off_t at, int flags) {
    if (!is_simulated(fd)) return next_preadv2()(fd, to, count, at, flags);
    if (flags != 0) return refuse(EOPNOTSUPP, "preadv2(%d) with flags %#x is not simulated", fd, flags);
    return at == -1 ? readv(fd, to, count) : preadv(fd, to, count, at);
}

ssize_t pwritev2(int fd, const struct iovec *from, int count, off_t at, int flags) {
    if (!is_simulated(fd)) return next_pwritev2()(fd, from, count, at, flags);
    if (flags != 0) return refuse(EOPNOTSUPP, "pwritev2(%d) with flags %#x is not simulated", fd, flags);
    return at == -1 ? writev(fd, from, count) : pwritev(fd, from, count, at);
}

SAME(ssize_t, preadv64v2, (int fd, const struct iovec *to, int count, off64_t at, int flags), preadv2,
     (fd, to, count, at, flags))
SAME(ssize_t, pwritev64v2, (int fd, const struct iovec *from, int count, off64_t at, int flags), pwritev2,
     (fd, from, count, at, flags))

/* ---- for _FORTIFY_SOURCE: `room` is what the compiler knows of the buffer ---- */

#define CHECKED(result, name, parameters, size, plain, arguments) \
    result name parameters;                                       \
    result name parameters {                                      \
        if ((size) > room) __chk_fail();                          \
        return plain arguments;                                   \
    }

CHECKED(int, __ppoll_chk,
        (struct pollfd *files, nfds_t count, const struct timespec *time, const sigset_t *mask, size_t room),
        count *sizeof *files, ppoll, (files, count, time, mask))
CHECKED(ssize_t, __pread_chk, (int fd, void *to, size_t count, off_t at, size_t room), count, pread,
        (fd, to, count, at))
CHECKED(ssize_t, __pread64_chk, (int fd, void *to, size_t count, off64_t at, size_t room), count, pread,
        (fd, to, count, at))
CHECKED(ssize_t, __recvfrom_chk,
        (int fd, void *to, size_t count, size_t room, int flags, struct sockaddr *from, socklen_t *size), count,
        recvfrom, (fd, to, count, flags, from, size))
CHECKED(ssize_t, __readlink_chk, (const char *path, char *to, size_t count, size_t room), count, readlink,
        (path, to, count))
CHECKED(ssize_t, __readlinkat_chk, (int folder, const char *path, char *to, size_t count, size_t room), count,
        readlinkat, (folder, path, to, count))

/* ---- lines that are written to a descriptor ---- */

int __vsnprintf_chk(char *to, size_t size, int check, size_t room, const char *format, va_list arguments);
int __vdprintf_chk(int fd, int check, const char *format, va_list arguments);
FORWARD(__vdprintf_chk)

/* All of it, or -1. */
static int write_all(int fd, const char *text, int size) {
    for (int done = 0; done < size;) {
        ssize_t taken = write(fd, text + done, (size_t)(size - done));
        if (taken < 0) return -1;
        done += (int)taken;
    }
    return size;
}

static int print(int fd, int check, const char *format, va_list arguments) {
    va_list again;
    char *text;
    int size;
    va_copy(again, arguments);
    size = __vsnprintf_chk(NULL, 0, check, SIZE_MAX, format, again);
    va_end(again);
    if (size < 0) return size;
    text = malloc((size_t)size + 1);
    if (!text) return -1;
    __vsnprintf_chk(text, (size_t)size + 1, check, SIZE_MAX, format, arguments);
    size = write_all(fd, text, size);
    free(text);
    return size;
}

int vdprintf(int fd, const char *restrict format, va_list arguments) {
    return is_simulated(fd) ? print(fd, 0, format, arguments) : next_vdprintf()(fd, format, arguments);
}

int __vdprintf_chk(int fd, int check, const char *format, va_list arguments) {
    return is_simulated(fd) ? print(fd, check, format, arguments)
                            : next___vdprintf_chk()(fd, check, format, arguments);
}

int dprintf(int fd, const char *restrict format, ...) {
    va_list arguments;
    int written;
    va_start(arguments, format);
    written = vdprintf(fd, format, arguments);
    va_end(arguments);
    return written;
}

int __dprintf_chk(int fd, int check, const char *format, ...);
int __dprintf_chk(int fd, int check, const char *format, ...) {
    va_list arguments;
    int written;
    va_start(arguments, format);
    written = __vdprintf_chk(fd, check, format, arguments);
    va_end(arguments);
    return written;
}
