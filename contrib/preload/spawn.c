/* posix_spawn: a fork, what is to be done in the child by plain calls there, and an exec. What is to be done to files
   is kept in lists of the shim's own, for the C library's refuse numbers above the real limit. */
#include "children.h"

#include <sched.h>
#include <spawn.h>
#include <stdlib.h>
#include <unistd.h>

FORWARD(sigaction)

/* ---- file actions ---- */

struct action {
    enum { COPY, CLOSE, OPEN, FOLDER, FOLDER_OF, CLOSE_FROM, FOREGROUND } what;
    int fd, to, flags;
    mode_t mode;
    char *path;
    struct action *next;
};

/* What stands in the C library's type, which is larger. */
struct actions {
    struct action *first;
};
_Static_assert(sizeof(struct actions) <= sizeof(posix_spawn_file_actions_t), "the list has room there");

static struct actions *list_in(const posix_spawn_file_actions_t *given) {
    return (struct actions *)(void *)(uintptr_t)given;
}

int posix_spawn_file_actions_init(posix_spawn_file_actions_t *given) {
    memset(given, 0, sizeof *given);
    return 0;
}

int posix_spawn_file_actions_destroy(posix_spawn_file_actions_t *given) {
    struct action *next, *each = list_in(given)->first;
    for (; each; each = next) {
        next = each->next;
        free(each->path);
        free(each);
    }
    list_in(given)->first = NULL;
    return 0;
}

static int add(posix_spawn_file_actions_t *given, struct action like, const char *path) {
    struct action **link = &list_in(given)->first, *made = malloc(sizeof *made);
    if (!made) return ENOMEM;
    *made = like;
    if (path) {
        size_t size = strlen(path) + 1;
        made->path = malloc(size);
        if (!made->path) {
            free(made);
            return ENOMEM;
        }
        memcpy(made->path, path, size);
    }
    while (*link) link = &(*link)->next;
    *link = made;
    return 0;
}

/* As the C library has it: a number that no process could have is refused at once. */
static bool is_number(int fd) { return fd >= 0 && fd < getdtablesize(); }

int posix_spawn_file_actions_adddup2(posix_spawn_file_actions_t *given, int fd, int to) {
    if (!is_number(fd) || !is_number(to)) return EBADF;
    return add(given, (struct action){.what = COPY, .fd = fd, .to = to}, NULL);
}

int posix_spawn_file_actions_addclose(posix_spawn_file_actions_t *given, int fd) {
    return is_number(fd) ? add(given, (struct action){.what = CLOSE, .fd = fd}, NULL) : EBADF;
}

int posix_spawn_file_actions_addopen(posix_spawn_file_actions_t *restrict given, int fd, const char *restrict path,
                                     int flags, mode_t mode) {
    if (!is_number(fd)) return EBADF;
    return add(given, (struct action){.what = OPEN, .fd = fd, .flags = flags, .mode = mode}, path);
}

int posix_spawn_file_actions_addchdir_np(posix_spawn_file_actions_t *restrict given, const char *restrict path) {
    return add(given, (struct action){.what = FOLDER}, path);
}

int posix_spawn_file_actions_addfchdir_np(posix_spawn_file_actions_t *given, int fd) {
    return is_number(fd) ? add(given, (struct action){.what = FOLDER_OF, .fd = fd}, NULL) : EBADF;
}

int posix_spawn_file_actions_addclosefrom_np(posix_spawn_file_actions_t *given, int fd) {
    return is_number(fd) ? add(given, (struct action){.what = CLOSE_FROM, .fd = fd}, NULL) : EBADF;
}

int posix_spawn_file_actions_addtcsetpgrp_np(posix_spawn_file_actions_t *given, int fd) {
    return is_number(fd) ? add(given, (struct action){.what = FOREGROUND, .fd = fd}, NULL) : EBADF;
}

/* ---- in the child: each 0, or minus an error number ---- */

static long open_at(const struct action *action) {
    long fd, status;
    RAW(SYS_close, action->fd);
    fd = RAW(SYS_openat, AT_FDCWD, action->path, action->flags, action->mode);
    if (fd < 0 || fd == action->fd) return fd;
    status = RAW(SYS_dup2, fd, action->fd);
    RAW(SYS_close, fd);
    return status;
}

/* All but the number by which an error is told. */
static long close_from(unsigned int first, unsigned int told) {
    if (first < told) RAW(SYS_close_range, first, told - 1, 0);
    return RAW(SYS_close_range, first <= told ? told + 1 : first, ~0U, 0);
}

static long act(const struct action *action, int told) {
    switch (action->what) {
    case COPY:
        if (action->fd == action->to) return RAW(SYS_fcntl, action->fd, F_SETFD, 0);
        return RAW(SYS_dup2, action->fd, action->to);
    case CLOSE: RAW(SYS_close, action->fd); return 0;
    case OPEN: return open_at(action);
    case FOLDER: return RAW(SYS_chdir, action->path);
    case FOLDER_OF: return RAW(SYS_fchdir, action->fd);
    case CLOSE_FROM: return close_from((unsigned int)action->fd, (unsigned int)told);
    default: return tcsetpgrp(action->fd, getpgrp()) < 0 ? -errno : 0;
    }
}

/* No handler of this program may run in the child. Signals are blocked meanwhile. */
static void set_signals(const sigset_t *defaults) {
    static const struct sigaction plain = {.sa_handler = SIG_DFL};
    for (int signal = 1; signal < NSIG; signal++) {
        struct sigaction action;
        bool is_set = defaults && sigismember(defaults, signal) == 1;
        if (!is_set && (next_sigaction()(signal, NULL, &action) != 0 || action.sa_handler == SIG_DFL ||
                        action.sa_handler == SIG_IGN))
            continue;
        next_sigaction()(signal, &plain, NULL);
    }
}

static int set_schedule(const posix_spawnattr_t *attributes, int flags) {
    struct sched_param parameter;
    int policy;
    posix_spawnattr_getschedparam(attributes, &parameter);
    posix_spawnattr_getschedpolicy(attributes, &policy);
    if (flags & POSIX_SPAWN_SETSCHEDULER) return sched_setscheduler(0, policy, &parameter);
    return flags & POSIX_SPAWN_SETSCHEDPARAM ? sched_setparam(0, &parameter) : 0;
}

static long set_attributes(const posix_spawnattr_t *attributes, int flags) {
    pid_t group;
    posix_spawnattr_getpgroup(attributes, &group);
    if (set_schedule(attributes, flags) < 0) return -errno;
    if ((flags & POSIX_SPAWN_SETSID) && setsid() < 0) return -errno;
    if ((flags & POSIX_SPAWN_SETPGROUP) && setpgid(0, group) < 0) return -errno;
    if (!(flags & POSIX_SPAWN_RESETIDS)) return 0;
    if (RAW(SYS_setresuid, -1, getuid(), -1) < 0) return -EPERM;
    return RAW(SYS_setresgid, -1, getgid(), -1);
}

/* ---- running a program ---- */

/* What posix_spawn was asked for. */
struct order {
    const char *path;
    const posix_spawn_file_actions_t *actions;
    const posix_spawnattr_t *attributes;
    char *const *words, *const *environment;
    bool searches;
    sigset_t mask; /* before */
};

static bool goes_on_after(int error) {
    return error == ENOENT || error == ENOTDIR || error == ESTALE || error == ENODEV || error == ETIMEDOUT;
}

/* As execvpe, but for a script without a first line, which posix_spawnp leaves. An error number. */
static int search(const struct order *order) {
    const char *folder = variable("PATH"), *end;
    size_t name = strlen(order->path);
    bool is_denied = false;
    if (name == 0) return ENOENT;
    for (folder = folder ? folder : "/bin:/usr/bin";; folder = end + 1) {
        char path[4096];
        size_t size = strcspn(folder, ":");
        end = folder + size;
        if (size + name + 2 <= sizeof path) {
            memcpy(path, folder, size);
            if (size > 0) path[size++] = '/';
            memcpy(path + size, order->path, name + 1);
            execve(path, order->words, order->environment);
            is_denied |= errno == EACCES;
            if (errno != EACCES && !goes_on_after(errno)) return errno;
        }
        if (*end == '\0') return is_denied ? EACCES : ENOENT;
    }
}

static int run(const struct order *order) {
    if (order->searches && !strchr(order->path, '/')) return search(order);
    execve(order->path, order->words, order->environment);
    return errno;
}

/* An error number: what is asked for is done in the order of the C library's posix_spawn. */
static int be_child(const struct order *order, int told) {
    const posix_spawnattr_t *attributes = order->attributes;
    const struct action *action = order->actions ? list_in(order->actions)->first : NULL;
    sigset_t defaults, mask = order->mask;
    short flags = 0;
    long status = 0;
    if (attributes) posix_spawnattr_getflags(attributes, &flags);
    if (flags & POSIX_SPAWN_SETSIGDEF) posix_spawnattr_getsigdefault(attributes, &defaults);
    set_signals(flags & POSIX_SPAWN_SETSIGDEF ? &defaults : NULL);
    if (attributes) status = set_attributes(attributes, flags);
    for (; action && status >= 0; action = action->next) status = act(action, told);
    if (status < 0) return (int)-status;
    if (flags & POSIX_SPAWN_SETSIGMASK) posix_spawnattr_getsigmask(attributes, &mask);
    sigprocmask(SIG_SETMASK, &mask, NULL);
    return run(order);
}

/* The child tells its error through a pipe that an exec closes. */
static int make_told(int told[2]) {
    struct rlimit before;
    long status = raise_real_limit(&before) ? RAW(SYS_pipe2, told, O_CLOEXEC) : -EMFILE;
    if (status < 0) return (int)-status;
    for (int i = 0; i < 2; i++) told[i] = lift(told[i]);
    lower_real_limit(&before);
    if (told[0] >= 0 && told[1] >= 0) return 0;
    for (int i = 0; i < 2; i++)
        if (told[i] >= 0) RAW(SYS_close, told[i]);
    return EMFILE;
}

static int hear(pid_t pid, int told) {
    int error = 0;
    long got;
    do {
        got = RAW(SYS_read, told, &error, sizeof error);
    } while (got == -EINTR);
    if (got != sizeof error) return 0;
    RAW(SYS_wait4, pid, NULL, 0, NULL);
    note_reaped(pid);
    return error;
}

static int spawn(pid_t *made, struct order *order) {
    int told[2], error = can_read_list(order->environment) ? make_told(told) : EFAULT;
    sigset_t all;
    pid_t pid;
    if (error != 0) return error;
    sigfillset(&all);
    sigprocmask(SIG_SETMASK, &all, &order->mask);
    pid = fork_quietly(told[1]);
    if (pid == 0) {
        error = be_child(order, told[1]);
        RAW(SYS_write, told[1], &error, sizeof error);
        RAW(SYS_exit_group, 127);
    }
    error = pid < 0 ? errno : 0;
    RAW(SYS_close, told[1]);
    if (pid > 0) error = hear(pid, told[0]);
    RAW(SYS_close, told[0]);
    sigprocmask(SIG_SETMASK, &order->mask, NULL);
    if (error == 0 && made) *made = pid;
    return error;
}

int posix_spawn(pid_t *restrict made, const char *restrict path, const posix_spawn_file_actions_t *restrict actions,
                const posix_spawnattr_t *restrict attributes, char *const words[restrict],
                char *const environment[restrict]) {
    struct order order = {path, actions, attributes, words, environment, false, {{0}}};
    return spawn(made, &order);
}

int posix_spawnp(pid_t *restrict made, const char *restrict path, const posix_spawn_file_actions_t *restrict actions,
                 const posix_spawnattr_t *restrict attributes, char *const words[restrict],
                 char *const environment[restrict]) {
    struct order order = {path, actions, attributes, words, environment, true, {{0}}};
    return spawn(made, &order);
}
