/* Streams of the C library over simulated descriptors, and popen. The C library's own streams call the real kernel, past
   the shim. So these are streams whose bytes the functions here move (fopencookie), by the same calls as a program. They
   tell their descriptor, as the others do. */
#include "preload.h"

#include <spawn.h>
#include <stdio.h>
#include <stdlib.h>
#include <sys/wait.h>

FORWARD(fdopen)

struct stream {
    FILE *file;
    int fd;
    pid_t pid; /* of popen's child, or 0 */
    struct stream *next;
};

static struct stream *all; /* under the table's lock */

static void link_stream(struct stream *stream) {
    QUIET;
    lock_table();
    stream->next = all;
    all = stream;
    unlock_table();
}

static void unlink_stream(const struct stream *stream) {
    struct stream **link = &all;
    QUIET;
    lock_table();
    while (*link && *link != stream) link = &(*link)->next;
    if (*link) *link = stream->next;
    unlock_table();
}

/* ---- bytes ---- */

/* A part of a stream's bytes. It is moved on a stack that is large enough, wherever the C library was called. */
struct part {
    int fd;
    char *bytes;
    size_t count;
    ssize_t moved;
};

static void read_part(void *given, long unused) {
    struct part *part = given;
    (void)unused;
    part->moved = read(part->fd, part->bytes, part->count);
}

static void write_part(void *given, long unused) {
    struct part *part = given;
    (void)unused;
    part->moved = write(part->fd, part->bytes, part->count);
}

static ssize_t read_stream(void *cookie, char *bytes, size_t count) {
    struct part part = {((struct stream *)cookie)->fd, bytes, count, -1};
    call_apart(read_part, &part, 0);
    return part.moved;
}

/* As many as could be written: fewer are an error. */
static ssize_t write_stream(void *cookie, const char *bytes, size_t count) {
    struct part part = {((struct stream *)cookie)->fd, (char *)(uintptr_t)bytes, count, 0};
    while (part.count > 0) {
        call_apart(write_part, &part, 0);
        if (part.moved < 0) break;
        part.bytes += part.moved;
        part.count -= (size_t)part.moved;
    }
    return (ssize_t)(count - part.count);
}

static int seek_in_stream(void *cookie, off64_t *offset, int whence) {
    (void)cookie, (void)offset, (void)whence;
    errno = ESPIPE;
    return -1;
}

/* What fclose answers, and pclose, which is the same. */
static int close_stream(void *cookie) {
    struct stream *stream = cookie;
    int status = close(stream->fd), told;
    pid_t pid = stream->pid, got;
    unlink_stream(stream);
    free(stream);
    if (pid == 0) return status;
    do {
        got = waitpid(pid, &told, 0);
    } while (got < 0 && errno == EINTR);
    return got < 0 ? -1 : told;
}

/* ---- making ---- */

static FILE *open_stream(int fd, const char *mode, pid_t pid) {
    static const cookie_io_functions_t functions = {read_stream, write_stream, seek_in_stream, close_stream};
    struct stream *stream = malloc(sizeof *stream);
    FILE *file = NULL;
    if (!stream) {
        errno = ENOMEM;
        return NULL;
    }
    *stream = (struct stream){.fd = fd, .pid = pid};
    file = stream->file = fopencookie(stream, mode, functions);
    if (!file) {
        free(stream);
        return NULL;
    }
    file->_fileno = fd; /* what fileno tells, and nothing else */
    link_stream(stream);
    return file;
}

/* Whether a descriptor of this access has what a mode asks for. */
static bool is_mode_of(const char *mode, int access) {
    bool both = strchr(mode, '+');
    if (!strchr("rwa", mode[0]) || mode[0] == '\0') return false;
    return access == O_RDWR || (!both && access == (mode[0] == 'r' ? O_RDONLY : O_WRONLY));
}

FILE *fdopen(int fd, const char *mode) {
    struct description *description;
    bool is_right;
    if (!is_simulated(fd)) return next_fdopen()(fd, mode);
    description = hold(fd);
    is_right = description && is_mode_of(mode, description->access);
    if (description) let_go(description);
    if (is_right) return open_stream(fd, mode, 0);
    errno = description ? EINVAL : EBADF;
    return NULL;
}

/* What isn't written yet, at the end of the program. A stream that another thread uses is left. */
void flush_streams(void) {
    for (struct stream *stream = all; stream; stream = stream->next) {
        if (ftrylockfile(stream->file) != 0) continue;
        fflush_unlocked(stream->file);
        funlockfile(stream->file);
    }
}

/* ---- popen ---- */

/* As POSIX has it, a child has none of the earlier streams of popen. */
static int add_closes(posix_spawn_file_actions_t *actions) {
    int error = 0;
    QUIET;
    lock_table();
    for (const struct stream *stream = all; stream && error == 0; stream = stream->next)
        if (stream->pid > 0) error = posix_spawn_file_actions_addclose(actions, stream->fd);
    unlock_table();
    return error;
}

/* The shell, whose `to` is this end of a pipe. An error number. */
static int start_shell(const char *command, int end, int to, pid_t *pid) {
    char *words[] = {"sh", "-c", (char *)(uintptr_t)command, NULL};
    posix_spawn_file_actions_t actions;
    int error;
    posix_spawn_file_actions_init(&actions);
    error = add_closes(&actions);
    if (error == 0) error = posix_spawn_file_actions_adddup2(&actions, end, to);
    if (error == 0) error = posix_spawn(pid, "/bin/sh", &actions, NULL, words, environ);
    posix_spawn_file_actions_destroy(&actions);
    return error;
}

FILE *popen(const char *command, const char *mode) {
    bool reads = strchr(mode, 'r');
    size_t right = strspn(mode, reads ? "re" : "we");
    int ends[2], error;
    FILE *file = NULL;
    pid_t pid;
    if (mode[right] != '\0' || (!reads && !strchr(mode, 'w'))) {
        errno = EINVAL;
        return NULL;
    }
    if (pipe2(ends, O_CLOEXEC) != 0) return NULL;
    error = start_shell(command, ends[reads ? 1 : 0], reads ? STDOUT_FILENO : STDIN_FILENO, &pid);
    close(ends[reads ? 1 : 0]);
    if (error == 0) {
        if (!strchr(mode, 'e')) fcntl(ends[reads ? 0 : 1], F_SETFD, 0);
        file = open_stream(ends[reads ? 0 : 1], reads ? "r" : "w", pid);
        error = errno;
    }
    if (file) return file;
    close(ends[reads ? 0 : 1]);
    errno = error;
    return NULL;
}
