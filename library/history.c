/* The history of a kernel: how much there is of it, its lines, and the descriptor that they go to as they come. */
#include "kernel.h"

#include <errno.h>
#include <stdlib.h>
#include <unistd.h>

/* What a record takes by itself, and how much may be there between two writes to the descriptor of a stream: 4,096
 * records, or fewer if they have bytes or reports with them. */
#define RECORD_BYTES 48
#define BYTES_A_PIECE ((size_t)4096 * RECORD_BYTES)

/* Lines go to a descriptor so many bytes at a time, and a longer one by itself. */
#define BYTES_A_WRITE ((size_t)65536)

int nippersage_reserve(struct nippersage_kernel *kernel, size_t events) {
    int result;
    if (!kernel) return -EINVAL;
    kernel_enter(kernel);
    result = ep_reserve(&kernel->handle, events);
    kernel_leave(kernel);
    return result;
}

int nippersage_records(struct nippersage_kernel *kernel, size_t *count) {
    int result;
    if (!kernel) return -EINVAL;
    if (!count) return -EFAULT;
    kernel_enter(kernel);
    result = ep_records(&kernel->handle, count);
    kernel_leave(kernel);
    return result;
}

int nippersage_events(struct nippersage_kernel *kernel, uint64_t *count) {
    size_t there = 0;
    int result;
    if (!kernel) return -EINVAL;
    if (!count) return -EFAULT;
    kernel_enter(kernel);
    result = ep_records(&kernel->handle, &there);
    if (result == 0) *count = kernel->forgotten + there;
    kernel_leave(kernel);
    return result;
}

int nippersage_check(struct nippersage_kernel *kernel) {
    int result;
    if (!kernel) return -EINVAL;
    kernel_enter(kernel);
    result = kernel->forgotten > 0 ? -EINVAL : ep_check(&kernel->handle);
    kernel_leave(kernel);
    return result;
}

static int write_all(int fd, const unsigned char *bytes, size_t count) {
    while (count > 0) {
        ssize_t taken = write(fd, bytes, count);
        if (taken < 0 && errno == EINTR) continue;
        if (taken < 0) return -errno;
        if (taken == 0) return -EIO;
        bytes += taken;
        count -= (size_t)taken;
    }
    return 0;
}

/* Lines on their way to a descriptor, with room that grows. */
struct lines {
    unsigned char *bytes;
    size_t length, room;
    int fd;
};

static int write_out(struct lines *lines) {
    int status = write_all(lines->fd, lines->bytes, lines->length);
    lines->length = 0;
    return status;
}

static int make_room(struct lines *lines, size_t room) {
    unsigned char *more;
    if (room <= lines->room) return 0;
    more = realloc(lines->bytes, room);
    if (!more) return -ENOMEM;
    lines->bytes = more;
    lines->room = room;
    return 0;
}

/* Puts the line of a record behind the others, with the byte 10 that ends it. */
static int add_line(struct nippersage_kernel *kernel, size_t place, struct lines *lines) {
    size_t size = 0;
    int32_t status = ep_line(&kernel->handle, place, lines->bytes + lines->length, lines->room - lines->length - 1, &size);
    if (status == -EMSGSIZE) {
        if ((status = write_out(lines)) < 0 || (status = make_room(lines, size + 1)) < 0) return status;
        status = ep_line(&kernel->handle, place, lines->bytes, lines->room - 1, &size);
    }
    if (status < 0) return status;
    lines->length += size;
    lines->bytes[lines->length++] = '\n';
    return lines->length < lines->room ? 0 : write_out(lines);
}

/* The lines of the records that are there. Each write ends with the end of a line. */
static int write_records(struct nippersage_kernel *kernel, int fd) {
    struct lines lines = {malloc(BYTES_A_WRITE), 0, BYTES_A_WRITE, fd};
    size_t count = 0;
    int status = ep_records(&kernel->handle, &count);
    if (!lines.bytes) return -ENOMEM;
    for (size_t place = 0; place < count && status == 0; place++) status = add_line(kernel, place, &lines);
    if (status == 0) status = write_out(&lines);
    free(lines.bytes);
    return status;
}

int nippersage_history(struct nippersage_kernel *kernel, int fd) {
    int saved = errno, status;
    if (!kernel) return -EINVAL;
    kernel_enter(kernel);
    status = write_records(kernel, fd);
    kernel_leave(kernel);
    errno = saved;
    return status;
}

/* ---- a history that goes out as it comes ---- */

static int forget_records(struct nippersage_kernel *kernel) {
    size_t count = 0;
    int status = ep_records(&kernel->handle, &count);
    if (status == 0) status = ep_forget(&kernel->handle);
    if (status == 0) kernel->forgotten += count;
    return status;
}

/* Writes the records that are there, if they go anywhere, and forgets them. What fails ends the stream, and leaves
 * them. */
static void write_piece(struct nippersage_kernel *kernel) {
    struct stream *stream = &kernel->stream;
    int saved = errno;
    stream->bytes = 0;
    stream->status = stream->fd == NIPPERSAGE_FORGET ? 0 : write_records(kernel, stream->fd);
    if (stream->status == 0) stream->status = forget_records(kernel);
    if (stream->status < 0) stream->is_on = 0;
    errno = saved;
}

/* What the record of an event takes, with the bytes that were given or read, or its reports. */
static size_t bytes_of(const struct exchange *x, int64_t result) {
    size_t found = result > 0 ? (size_t)result : 0, bytes = RECORD_BYTES + x->given_length;
    if (x->bytes) bytes += found;
    if (x->reports > 0) bytes += found * sizeof(struct ep_report);
    return bytes;
}

void history_goes_on(struct nippersage_kernel *kernel, const struct exchange *x, int64_t result) {
    kernel->stream.bytes += bytes_of(x, result);
    if (kernel->stream.bytes >= BYTES_A_PIECE) write_piece(kernel);
}

int nippersage_stream(struct nippersage_kernel *kernel, int fd) {
    int status;
    if (!kernel) return -EINVAL;
    kernel_enter(kernel);
    if (kernel->stream.is_on) write_piece(kernel);
    status = kernel->stream.status;
    kernel->stream = (struct stream){.fd = fd, .is_on = fd >= 0 || fd == NIPPERSAGE_FORGET};
    kernel_leave(kernel);
    return status;
}
