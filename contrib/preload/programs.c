/* Other programs: a child runs them on the real kernel, without the shim. In place of the program itself none can be
   run, for its history would be lost. */
#include "preload.h"

#include <stdarg.h>
#include <stdlib.h>
#include <sys/syscall.h>
#include <sys/wait.h>

FORWARD(execvpe)
FORWARD(fexecve)

/* ---- the environment ---- */

static bool is_the_shim(const char *name, size_t size) {
    static const char shim[] = "libnippersage-preload.so";
    size_t least = sizeof shim - 1;
    return size >= least && memcmp(name + size - least, shim, least) == 0;
}

/* LD_PRELOAD without the shim. NULL without memory. */
static char *without_shim(const char *given) {
    static const char separators[] = ": ";
    size_t name = strcspn(given, "=") + 1;
    char *kept = malloc(strlen(given) + 1), *to = kept;
    if (!kept) return NULL;
    memcpy(to, given, name);
    to += name;
    for (const char *from = given + name; *from;) {
        size_t size = strcspn(from, separators), between = from[size] ? 1 : 0;
        if (!is_the_shim(from, size)) {
            memcpy(to, from, size + between);
            to += size + between;
        }
        from += size + between;
    }
    *to = '\0';
    return kept;
}

/* The variable that LD_PRELOAD is to be, or the place of none. */
struct plain {
    char **variables;
    char *preload;
};

static struct plain begin_plain(char *const given[]) {
    static const char name[] = "LD_PRELOAD=";
    struct plain plain = {NULL, NULL};
    size_t count = 0, kept = 0;
    if (!can_read_list(given)) return plain;
    while (given && given[count]) count++;
    plain.variables = malloc((count + 1) * sizeof *plain.variables);
    for (size_t i = 0; plain.variables && i < count; i++) {
        char *variable = given[i];
        if (strncmp(variable, name, sizeof name - 1) == 0) {
            if (!plain.preload) plain.preload = without_shim(variable);
            if (!plain.preload || !plain.preload[sizeof name - 1]) continue;
            variable = plain.preload;
        }
        plain.variables[kept++] = variable;
    }
    if (plain.variables) plain.variables[kept] = NULL;
    return plain;
}

/* After an exec that failed. */
static void end_plain(struct plain *plain) {
    int saved = errno;
    free(plain->variables);
    free(plain->preload);
    errno = saved;
}

#define PLAIN(environment) __attribute__((cleanup(end_plain))) struct plain plain = begin_plain(environment)

/* ---- exec ---- */

static int refuse_program(const char *path) {
    if (!can_read_text(path)) return (int)plain_answer(-EFAULT);
    return refuse(ENOSYS, "%s can't be run in place of this program, whose history would be lost: fork first", path);
}

/* Why there is no environment. */
static int no_environment(char *const given[]) {
    errno = can_read_list(given) ? ENOMEM : EFAULT;
    return -1;
}

int execve(const char *path, char *const words[], char *const environment[]) {
    if (!is_outside) return refuse_program(path);
    PLAIN(environment);
    long given[6] = {(long)path, (long)words, (long)plain.variables};
    return plain.variables ? (int)plain_answer(run_program(SYS_execve, given)) : no_environment(environment);
}

int execv(const char *path, char *const words[]) { return execve(path, words, environ); }

int execvpe(const char *path, char *const words[], char *const environment[]) {
    if (!is_outside) return refuse_program(path);
    PLAIN(environment);
    return plain.variables ? next_execvpe()(path, words, plain.variables) : no_environment(environment);
}

int execvp(const char *path, char *const words[]) { return execvpe(path, words, environ); }

int fexecve(int fd, char *const words[], char *const environment[]) {
    if (!is_outside) return refuse_program(words[0]);
    PLAIN(environment);
    return plain.variables ? next_fexecve()(fd, words, plain.variables) : no_environment(environment);
}

int execveat(int folder, const char *path, char *const words[], char *const environment[], int flags) {
    if (!is_outside) return refuse_program(path);
    PLAIN(environment);
    long given[6] = {folder, (long)path, (long)words, (long)plain.variables, flags};
    return plain.variables ? (int)plain_answer(run_program(SYS_execveat, given)) : no_environment(environment);
}

/* A function whose words are its arguments, with NULL at their end, and perhaps the environment behind it. */
#define LISTED(name, run, other_environment)                                              \
    int name(const char *path, const char *word, ...) {                                   \
        size_t count = 1;                                                                 \
        va_list more;                                                                     \
        va_start(more, word);                                                             \
        while (va_arg(more, char *)) count++;                                             \
        va_end(more);                                                                     \
        char *words[count + 1];                                                           \
        words[0] = (char *)(uintptr_t)word;                                               \
        va_start(more, word);                                                             \
        for (size_t i = 1; i <= count; i++) words[i] = va_arg(more, char *);              \
        char *const *variables = other_environment ? va_arg(more, char *const *) : environ; \
        va_end(more);                                                                     \
        return run(path, words, variables);                                               \
    }

LISTED(execl, execve, false)
LISTED(execlp, execvpe, false)
LISTED(execle, execve, true)

bool call_program(long number, const long given[6], long *result) {
    const char *path = (const char *)given[number == SYS_execveat ? 1 : 0];
    char *const *words = (char *const *)given[number == SYS_execveat ? 2 : 1];
    char *const *environment = (char *const *)given[number == SYS_execveat ? 3 : 2];
    if (number == SYS_execve) {
        *result = execve(path, words, environment);
    } else if (number == SYS_execveat) {
        *result = execveat((int)given[0], path, words, environment, (int)given[4]);
    } else {
        return false;
    }
    return true;
}

/* ---- system ---- */

/* As POSIX has it: SIGINT and SIGQUIT are ignored meanwhile, and SIGCHLD is blocked. */
struct waiting_for_shell {
    struct sigaction interrupt, quit;
    sigset_t mask;
};

static void begin_shell(struct waiting_for_shell *before) {
    struct sigaction ignore = {.sa_handler = SIG_IGN};
    sigset_t child;
    sigaction(SIGINT, &ignore, &before->interrupt);
    sigaction(SIGQUIT, &ignore, &before->quit);
    sigemptyset(&child);
    sigaddset(&child, SIGCHLD);
    sigprocmask(SIG_BLOCK, &child, &before->mask);
}

static void end_shell(const struct waiting_for_shell *before) {
    int saved = errno;
    sigaction(SIGINT, &before->interrupt, NULL);
    sigaction(SIGQUIT, &before->quit, NULL);
    sigprocmask(SIG_SETMASK, &before->mask, NULL);
    errno = saved;
}

static _Noreturn void be_shell(const char *command, const struct waiting_for_shell *before) {
    char *words[] = {"sh", "-c", (char *)(uintptr_t)command, NULL};
    end_shell(before);
    execve("/bin/sh", words, environ);
    _exit(127);
}

int system(const char *command) {
    struct waiting_for_shell before;
    int status = -1;
    pid_t pid, got;
    if (!command) return 1;
    begin_shell(&before);
    pid = fork();
    if (pid == 0) be_shell(command, &before);
    do {
        got = pid < 0 ? pid : waitpid(pid, &status, 0);
    } while (got < 0 && pid >= 0 && errno == EINTR);
    end_shell(&before);
    return got < 0 ? -1 : status;
}
