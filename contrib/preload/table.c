/* Descriptors: what the kernel doesn't keep of them (O_NONBLOCK, access modes, how many bytes wait), and the calls that
   make, copy, change and close them. */
#include "preload.h"

#include <limits.h>
#include <linux/close_range.h>
#include <pthread.h>
#include <stdarg.h>
#include <stdlib.h>
#include <sys/eventfd.h>
#include <sys/ioctl.h>
#include <sys/socket.h>
#include <sys/stat.h>
#include <sys/syscall.h>

FORWARD(socketpair)
FORWARD(dup)
FORWARD(dup2)
FORWARD(dup3)
FORWARD(close)
FORWARD(close_range)
FORWARD(fcntl)
FORWARD(ioctl)
FORWARD(fstat)

/* A number of the kernel. An instance of the shim's own has no description, and no descriptor that the program may
   use. */
struct entry {
    struct description *description;
    bool closes_on_exec;
    bool is_own;
};

/* The lock is held over the kernel's call that makes or frees a number and the change here. No call that waits holds
   it. */
static pthread_mutex_t lock = PTHREAD_MUTEX_INITIALIZER;
static struct entry *_Atomic table; /* NUMBERS of them, once there is a kernel */

int make_table(void) {
    table = calloc((size_t)NUMBERS, sizeof *table);
    return table ? 0 : -ENOMEM;
}

/* Each call asks some times. A number below FIRST becomes one above all. */
static struct entry *entry_of(int fd) {
    const struct settings *set = settings();
    unsigned int number = (unsigned int)fd - (unsigned int)set->first;
    struct entry *all = table;
    return all && number < set->limits.descriptors && all[number].description ? &all[number] : NULL;
}

/* ---- descriptions, under the lock ---- */

static void drop(struct description *description) {
    if (!description || --description->holders > 0) return;
    if (description->peer) description->peer->peer = NULL;
    if (description->kind == PIDFD) end_pidfd(description);
    end_waiting(&description->waiting);
    free(description);
}

/* Says once that the kernel has no more, for a program that counts on more looks for the reason elsewhere. */
static int say_if_full(int status) {
    static atomic_flag is_told = ATOMIC_FLAG_INIT;
    if ((status == -EMFILE || status == -ENFILE) && !atomic_flag_test_and_set(&is_told))
        say("the simulated kernel has %u descriptors and %u files, and all are taken (NIPPERSAGE_LIMITS)",
            settings()->limits.descriptors, settings()->limits.files);
    return status;
}

/* A new number names a new description. Where there is no memory for it, the number is closed again. */
static int put_new(int number, struct description like, int flags) {
    struct description *made;
    if (number < 0) return say_if_full(number);
    made = malloc(sizeof *made);
    if (!made) {
        nippersage_close(self(), number);
        return -ENOMEM;
    }
    *made = like;
    made->holders = 1;
    made->is_nonblocking = flags & O_NONBLOCK;
    table[number] = (struct entry){made, flags & O_CLOEXEC, false};
    return number + FIRST;
}

static int close_entry(int fd) {
    struct entry *entry = entry_of(fd);
    int status = entry ? nippersage_close(self(), fd - FIRST) : -EBADF;
    if (status == 0) {
        drop(entry->description);
        *entry = (struct entry){NULL, false, false};
    }
    return status;
}

/* As put_new for two numbers, whose descriptions are each other's peers. */
static int put_pair(int status, const int numbers[2], enum kind kind, const int accesses[2], int flags, int ends[2]) {
    if (status < 0) return say_if_full(status);
    for (int i = 0; i < 2; i++)
        ends[i] = put_new(numbers[i], (struct description){.kind = kind, .access = accesses[i]}, flags);
    if (ends[0] < 0 || ends[1] < 0) {
        for (int i = 0; i < 2; i++) close_entry(ends[i]);
        return -ENOMEM;
    }
    table[numbers[0]].description->peer = table[numbers[1]].description;
    table[numbers[1]].description->peer = table[numbers[0]].description;
    return 0;
}

/* A number names the description of another one. */
static int put_copy(int number, const struct entry *from, int flags) {
    if (number < 0) return say_if_full(number);
    from->description->holders++;
    drop(table[number].description);
    table[number] = (struct entry){from->description, flags & O_CLOEXEC, false};
    return number + FIRST;
}

struct description *hold(int fd) {
    struct entry *entry;
    QUIET;
    pthread_mutex_lock(&lock);
    entry = entry_of(fd);
    if (entry) entry->description->holders++;
    pthread_mutex_unlock(&lock);
    return entry ? entry->description : NULL;
}

void let_go(struct description *description) {
    QUIET;
    pthread_mutex_lock(&lock);
    drop(description);
    pthread_mutex_unlock(&lock);
}

void lock_table(void) { pthread_mutex_lock(&lock); }

void unlock_table(void) { pthread_mutex_unlock(&lock); }

bool try_lock_table(void) {
    static const struct timespec a_while = {0, 1000000};
    for (int tries = 0; tries < 100; tries++) {
        if (pthread_mutex_trylock(&lock) == 0) return true;
        RAW(SYS_nanosleep, &a_while, NULL);
    }
    return false;
}

bool names(int fd, const struct description *description) {
    struct entry *entry = entry_of(fd);
    return entry && entry->description == description;
}

/* ---- for others, under the lock ---- */

struct description *description_at(int number, bool *closes_on_exec) {
    *closes_on_exec = table[number].closes_on_exec;
    return table[number].description;
}

bool is_taken(int number) { return table[number].description || table[number].is_own; }

void free_number(int number) { table[number] = (struct entry){NULL, false, false}; }

void add_holder(struct description *description) { description->holders++; }

void drop_holder(struct description *description) { drop(description); }

int number_of(const struct description *description) {
    int number = 0;
    while (number < NUMBERS && table[number].description != description) number++;
    return number < NUMBERS ? number : -1;
}

bool is_named(const struct description *description) { return number_of(description) >= 0; }

int number_that_names(const struct description *description) {
    int number;
    QUIET;
    pthread_mutex_lock(&lock);
    number = number_of(description);
    pthread_mutex_unlock(&lock);
    return number;
}

int make_own_instance(void) {
    int number;
    QUIET;
    pthread_mutex_lock(&lock);
    number = nippersage_epoll_create1(self(), 0);
    if (number >= 0) table[number].is_own = true;
    pthread_mutex_unlock(&lock);
    return number;
}

int make_own_eventfd(unsigned int value) {
    int number;
    QUIET;
    pthread_mutex_lock(&lock);
    number = nippersage_eventfd(self(), value, 0);
    if (number >= 0) table[number].is_own = true;
    pthread_mutex_unlock(&lock);
    return number;
}

void end_own(int number) {
    QUIET;
    pthread_mutex_lock(&lock);
    nippersage_close(self(), number);
    table[number].is_own = false;
    pthread_mutex_unlock(&lock);
}

/* ---- new descriptors ---- */

FORWARD(epoll_create1)
FORWARD(eventfd)
FORWARD(timerfd_create)
FORWARD(pipe2)

int epoll_create1(int flags) {
    int made;
    HAND_ON(next_epoll_create1()(flags));
    QUIET;
    pthread_mutex_lock(&lock);
    made =
        put_new(nippersage_epoll_create1(self(), flags), (struct description){.kind = EPOLL, .access = O_RDWR}, flags);
    pthread_mutex_unlock(&lock);
    return (int)ANSWER(made, "epoll_create1(%s)", flags_text(TEXT, "EPOLL_", flags));
}

int epoll_create(int size) {
    if (size > 0) return epoll_create1(0);
    errno = EINVAL;
    return -1;
}

int eventfd(unsigned int count, int flags) {
    int made;
    HAND_ON(next_eventfd()(count, flags));
    QUIET;
    pthread_mutex_lock(&lock);
    made = put_new(nippersage_eventfd(self(), count, flags), (struct description){.kind = EVENTFD, .access = O_RDWR},
                   flags);
    pthread_mutex_unlock(&lock);
    return (int)ANSWER(made, "eventfd2(%u, %s)", count, flags_text(TEXT, "EFD_", flags));
}

int timerfd_create(clockid_t clock, int flags) {
    struct description like = {.kind = TIMERFD, .access = O_RDWR, .clock = clock};
    int kept = clock == CLOCK_BOOTTIME ? CLOCK_MONOTONIC : clock, made;
    HAND_ON(next_timerfd_create()(clock, flags));
    QUIET;
    pthread_mutex_lock(&lock);
    made = put_new(nippersage_timerfd_create(self(), kept, flags), like, flags);
    pthread_mutex_unlock(&lock);
    return (int)ANSWER(made, "timerfd_create(%s, %s)", clock_text(TEXT, clock), flags_text(TEXT, "TFD_", flags));
}

int pipe2(int ends[2], int flags) {
    static const int accesses[2] = {O_RDONLY, O_WRONLY};
    int numbers[2], status;
    HAND_ON(next_pipe2()(ends, flags));
    QUIET;
    if (!can_write(ends, 2 * sizeof *ends)) return (int)ANSWER(-EFAULT, "pipe2(%p)", (void *)ends);
    pthread_mutex_lock(&lock);
    status = put_pair(nippersage_pipe2(self(), numbers, flags), numbers, PIPE, accesses, flags, ends);
    pthread_mutex_unlock(&lock);
    return (int)ANSWER(status, "pipe2([%d, %d], %s)", status < 0 ? -1 : ends[0], status < 0 ? -1 : ends[1],
                       flags_text(TEXT, "O_", flags));
}

int pipe(int ends[2]) { return pipe2(ends, 0); }

int socketpair(int domain, int type, int protocol, int ends[2]) {
    static const int accesses[2] = {O_RDWR, O_RDWR};
    int flags = type & (SOCK_CLOEXEC | SOCK_NONBLOCK), numbers[2], status;
    if (is_outside || domain != AF_UNIX) return next_socketpair()(domain, type, protocol, ends);
    QUIET;
    if ((type & ~flags) != SOCK_STREAM)
        return refuse(ESOCKTNOSUPPORT, "socketpair: only SOCK_STREAM is simulated, not type %d", type & ~flags);
    if (!can_write(ends, 2 * sizeof *ends)) return (int)ANSWER(-EFAULT, "socketpair(%p)", (void *)ends);
    pthread_mutex_lock(&lock);
    status = put_pair(nippersage_socketpair(self(), domain, type, protocol, numbers), numbers, SOCKET, accesses, flags,
                      ends);
    pthread_mutex_unlock(&lock);
    return (int)ANSWER(status, "socketpair(AF_UNIX, SOCK_STREAM%s%s, %d, [%d, %d])", flags ? "|" : "",
                       flags ? flags_text(TEXT, "SOCK_", flags) : "", protocol, status < 0 ? -1 : ends[0],
                       status < 0 ? -1 : ends[1]);
}

int put_pidfd(int real) {
    struct description like = {.kind = PIDFD, .access = O_RDWR, .real_pidfd = real};
    int made;
    QUIET;
    pthread_mutex_lock(&lock);
    made = put_new(nippersage_eventfd(self(), 0, 0), like, O_CLOEXEC);
    if (made >= 0) begin_pidfd(table[made - FIRST].description);
    pthread_mutex_unlock(&lock);
    if (made < 0) RAW(SYS_close, real);
    return made;
}

/* ---- copies and closes ---- */

static int copy(int fd, int flags) {
    struct entry *from = entry_of(fd);
    return from ? put_copy(nippersage_dup(self(), fd - FIRST), from, flags) : -EBADF;
}

/* To the lowest free number from `least` on. */
static int copy_from(int fd, int least, int flags) {
    struct entry *from = entry_of(fd);
    int number = least > FIRST ? least - FIRST : 0;
    if (number == 0) return copy(fd, flags);
    if (!from) return -EBADF;
    if (number >= NUMBERS) return -EINVAL;
    while (number < NUMBERS && (table[number].description || table[number].is_own)) number++;
    if (number == NUMBERS) return -EMFILE;
    return put_copy(nippersage_dup2(self(), fd - FIRST, number), from, flags);
}

int dup(int fd) {
    int made;
    HAND_ON_OF(fd, "dup", next_dup()(fd));
    if (!is_simulated(fd)) return next_dup()(fd);
    QUIET;
    pthread_mutex_lock(&lock);
    made = copy(fd, 0);
    pthread_mutex_unlock(&lock);
    return (int)ANSWER(made, "dup(%d)", fd);
}

static int copy_to(int fd, int to, int flags) {
    struct entry *from = entry_of(fd);
    if (!from || to >= FIRST + NUMBERS) return -EBADF;
    if (table[to - FIRST].is_own || to - FIRST == sleeping_instance()) return -EBUSY;
    return put_copy(nippersage_dup2(self(), fd - FIRST, to - FIRST), from, flags);
}

int dup3(int fd, int to, int flags) {
    int made;
    HAND_ON_OF(fd, "dup3", next_dup3()(fd, to, flags));
    if (!is_simulated(fd) && !is_simulated(to)) return next_dup3()(fd, to, flags);
    QUIET;
    if (is_simulated(fd) != is_simulated(to))
        return refuse(EBADF, "dup2(%d, %d): one is real and one is simulated", fd, to);
    if (fd == to || (flags & ~O_CLOEXEC)) return (int)ANSWER(-EINVAL, "dup3(%d, %d, %#x)", fd, to, flags);
    pthread_mutex_lock(&lock);
    made = copy_to(fd, to, flags);
    pthread_mutex_unlock(&lock);
    return (int)ANSWER(made, "dup3(%d, %d, %s)", fd, to, flags_text(TEXT, "O_", flags));
}

int dup2(int fd, int to) {
    struct description *same;
    HAND_ON_OF(fd, "dup2", next_dup2()(fd, to));
    if (fd != to || !is_simulated(fd))
        return is_simulated(fd) || is_simulated(to) ? dup3(fd, to, 0) : next_dup2()(fd, to);
    same = hold(fd);
    if (same) let_go(same);
    return (int)ANSWER(same ? fd : -EBADF, "dup2(%d, %d)", fd, to);
}

int close(int fd) {
    int status;
    if (!is_simulated(fd)) {
        status = next_close()(fd);
        return is_outside ? close_lost(fd, status) : status;
    }
    QUIET;
    pthread_mutex_lock(&lock);
    status = close_entry(fd);
    pthread_mutex_unlock(&lock);
    return (int)ANSWER(status, "close(%d)", fd);
}

static void close_simulated(unsigned int first, unsigned int last, int flags) {
    QUIET;
    pthread_mutex_lock(&lock);
    for (unsigned int fd = first; fd <= last && fd < (unsigned int)(FIRST + NUMBERS); fd++) {
        struct entry *entry = entry_of((int)fd);
        if (entry && (flags & CLOSE_RANGE_CLOEXEC)) {
            entry->closes_on_exec = true;
        } else if (entry) {
            close_entry((int)fd);
        }
    }
    pthread_mutex_unlock(&lock);
}

/* The real kernel looks at the flags, and closes what is below the border. A copy of the table for this thread alone,
   which it makes for CLOSE_RANGE_UNSHARE, would have no simulated part. */
int close_range(unsigned int first, unsigned int last, int flags) {
    unsigned int border = (unsigned int)FIRST;
    int status;
    if (first <= last && last >= border && (flags & CLOSE_RANGE_UNSHARE))
        return refuse(EINVAL, "close_range(%u, %u): CLOSE_RANGE_UNSHARE of simulated descriptors is not simulated",
                      first, last);
    if (last < border || first > last) return next_close_range()(first, last, flags);
    /* What is real above the border is the shim's own, and none is at the border: that call asks for the flags alone. */
    status = next_close_range()(first < border ? first : border, first < border ? border - 1 : border, flags);
    if (status == 0) close_simulated(first < border ? border : first, last, flags);
    return (int)ANSWER(status < 0 ? -errno : 0, "close_range(%u, %u, %#x)", first, last, flags);
}

void closefrom(int first) { close_range(first < 0 ? 0 : (unsigned int)first, UINT_MAX, 0); }

/* ---- fcntl, ioctl, fstat ---- */

/* What F_GETPIPE_SZ tells. */
static int tell_pipe_room(const struct description *pipe) {
    if (pipe->kind != PIPE) return -EBADF;
    return pipe->pipe_room > 0 ? pipe->pipe_room : (int)settings()->limits.pipe_bytes;
}

/* As on Linux, a pipe's room is a power of two, and a page at least. The kernel's has the room that it has: more is
   refused, and less is told, but not so. */
static int set_pipe_room(struct description *pipe, unsigned int asked) {
    const struct description *reader = pipe->access == O_RDONLY ? pipe : pipe->peer;
    unsigned int room = 4096;
    if (pipe->kind != PIPE) return -EBADF;
    if (asked > 1U << 31) return -EINVAL;
    while (room < asked) room *= 2;
    if (room > settings()->limits.pipe_bytes) return -EPERM;
    if (reader && reader->waiting.count > room) return -EBUSY;
    pipe->pipe_room = (int)room;
    if (pipe->peer) pipe->peer->pipe_room = (int)room;
    return (int)room;
}

/* What needs the entry, under the lock. */
static int control(struct entry *entry, int fd, int command, long argument) {
    switch (command) {
    case F_GETFL: return entry->description->access | (entry->description->is_nonblocking ? O_NONBLOCK : 0);
    case F_SETFL: entry->description->is_nonblocking = argument & O_NONBLOCK; return 0;
    case F_GETFD: return entry->closes_on_exec ? FD_CLOEXEC : 0;
    case F_SETFD: entry->closes_on_exec = argument & FD_CLOEXEC; return 0;
    case F_DUPFD: return copy_from(fd, (int)argument, 0);
    case F_DUPFD_CLOEXEC: return copy_from(fd, (int)argument, O_CLOEXEC);
    case F_GETPIPE_SZ: return tell_pipe_room(entry->description);
    case F_SETPIPE_SZ: return set_pipe_room(entry->description, (unsigned int)argument);
    default: return -EINVAL;
    }
}

/* Says what comes of a room that isn't the kernel's. */
static void say_room(int fd, long asked, int result) {
    unsigned int room = settings()->limits.pipe_bytes;
    if (result == -EPERM)
        say("fcntl(%d, F_SETPIPE_SZ, %ld): a pipe has room for %u bytes (NIPPERSAGE_LIMITS)", fd, asked, room);
    if (result > 0 && result < (int)room)
        say("fcntl(%d, F_SETPIPE_SZ, %ld): is told, but the pipe has room for %u bytes", fd, asked, room);
}

static int control_simulated(int fd, int command, long argument) {
    bool is_known = command == F_GETFL || command == F_SETFL || command == F_GETFD || command == F_SETFD ||
                    command == F_DUPFD || command == F_DUPFD_CLOEXEC || command == F_GETPIPE_SZ ||
                    command == F_SETPIPE_SZ;
    struct entry *entry;
    int result;
    if (!is_known || (command == F_SETFL && (argument & O_ASYNC)))
        return refuse(EINVAL, "fcntl(%d, %d, %#lx) is not simulated", fd, command, argument);
    QUIET;
    pthread_mutex_lock(&lock);
    entry = entry_of(fd);
    result = entry ? control(entry, fd, command, argument) : -EBADF;
    pthread_mutex_unlock(&lock);
    if (command == F_SETPIPE_SZ) say_room(fd, argument, result);
    return (int)ANSWER(result, "fcntl(%d, %d, %#lx)", fd, command, argument);
}

/* A copy of a real descriptor gets a real number. */
static int control_real(int fd, int command, long argument) {
    if ((command == F_DUPFD || command == F_DUPFD_CLOEXEC) && (int)argument >= FIRST)
        return refuse(EINVAL, "fcntl(%d, F_DUPFD, %d): a real descriptor can't have a simulated number", fd,
                      (int)argument);
    return is_harmless_command(command, argument) ? next_fcntl()(fd, command, argument) : -1;
}

int fcntl(int fd, int command, ...) {
    va_list arguments;
    long argument;
    va_start(arguments, command);
    argument = va_arg(arguments, long);
    va_end(arguments);
    HAND_ON_OF(fd, "fcntl", control_real(fd, command, argument));
    return is_simulated(fd) ? control_simulated(fd, command, argument) : control_real(fd, command, argument);
}

int fcntl64(int fd, int command, ...) {
    va_list arguments;
    long argument;
    va_start(arguments, command);
    argument = va_arg(arguments, long);
    va_end(arguments);
    return fcntl(fd, command, argument);
}

/* How many bytes wait. */
static int tell_unread(const struct description *description, int *count) {
    const struct description *at = description;
    if (at->kind != PIPE && at->kind != SOCKET) return -ENOTTY;
    if (!WRITABLE(count)) return -EFAULT;
    if (at->access == O_WRONLY) at = at->peer;
    *count = at ? (int)at->waiting.count : 0;
    return 0;
}

static int request_of(struct entry *entry, unsigned long request, void *argument) {
    switch (request) {
    case FIONBIO:
        if (!READABLE((const int *)argument)) return -EFAULT;
        entry->description->is_nonblocking = *(const int *)argument != 0;
        return 0;
    case FIOCLEX: entry->closes_on_exec = true; return 0;
    case FIONCLEX: entry->closes_on_exec = false; return 0;
    case FIONREAD: return tell_unread(entry->description, argument);
    default: return -ENOTTY;
    }
}

int ioctl(int fd, unsigned long request, ...) {
    va_list arguments;
    struct entry *entry;
    void *argument;
    int result;
    va_start(arguments, request);
    argument = va_arg(arguments, void *);
    va_end(arguments);
    if (!is_simulated(fd)) return is_harmless_request(fd, request, argument) ? next_ioctl()(fd, request, argument) : -1;
    QUIET;
    if (request == FIONREAD && has_children()) note_taken();
    pthread_mutex_lock(&lock);
    entry = entry_of(fd);
    result = entry ? request_of(entry, request, argument) : -EBADF;
    pthread_mutex_unlock(&lock);
    if (request == FIONREAD && result == 0 && *(int *)argument == 0 && has_children()) look_for_nothing();
    /* TCGETS asks whether this is a terminal; ENOTTY is its answer. */
    if (result == -ENOTTY && request != TCGETS) return refuse(ENOTTY, "ioctl(%d, %#lx) is not simulated", fd, request);
    return (int)ANSWER(result, "ioctl(%d, %#lx)", fd, request);
}

int fstat(int fd, struct stat *status) {
    struct description *description;
    mode_t mode;
    if (!is_simulated(fd)) return next_fstat()(fd, status);
    description = hold(fd);
    if (!description) return (int)ANSWER(-EBADF, "fstat(%d)", fd);
    if (!WRITABLE(status)) {
        let_go(description);
        return (int)ANSWER(-EFAULT, "fstat(%d, %p)", fd, (void *)status);
    }
    mode = description->kind == PIPE ? S_IFIFO | 0600 : description->kind == SOCKET ? S_IFSOCK | 0777 : 0600;
    let_go(description);
    memset(status, 0, sizeof *status);
    status->st_mode = mode;
    status->st_nlink = 1;
    status->st_ino = (ino_t)fd;
    status->st_uid = geteuid();
    status->st_gid = getegid();
    status->st_blksize = 4096;
    return (int)ANSWER(0, "fstat(%d)", fd);
}

int fstat64(int fd, struct stat64 *status) {
    _Static_assert(sizeof(struct stat) == sizeof(struct stat64), "on x86-64 they are one");
    return fstat(fd, (struct stat *)(void *)status);
}
