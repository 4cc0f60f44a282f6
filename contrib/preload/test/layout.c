/* A child whose program can get no other layout than this one, as in a container that forbids personality(2) and has a
   bound on the stack: by its addresses the filter would take it for this program, and end it by SIGSYS when it makes a
   pipe. So none is run. Simulated only; layout.out is what both streams have to say. */
#include "child.h"
#include "trace.h"

#include <linux/filter.h>
#include <linux/seccomp.h>
#include <spawn.h>
#include <stddef.h>
#include <stdlib.h>
#include <sys/prctl.h>
#include <sys/resource.h>
#include <sys/syscall.h>
#include <unistd.h>

extern char **environ;

#define LOAD(field) BPF_STMT(BPF_LD | BPF_W | BPF_ABS, (unsigned int)offsetof(struct seccomp_data, field))
#define SKIP_UNLESS(value, count) BPF_JUMP(BPF_JMP | BPF_JEQ | BPF_K, value, 0, count)
#define ANSWER(what) BPF_STMT(BPF_RET | BPF_K, what)

static bool forbid(void) {
    struct sock_filter code[] = {
        LOAD(nr),
        SKIP_UNLESS(SYS_personality, 3),
        LOAD(args[0]),
        SKIP_UNLESS(0xffffffff, 6), /* asks for it */
        ANSWER(SECCOMP_RET_ALLOW),
        SKIP_UNLESS(SYS_setrlimit, 3),
        LOAD(args[0]),
        SKIP_UNLESS(RLIMIT_STACK, 1),
        ANSWER(SECCOMP_RET_ERRNO | EPERM),
        ANSWER(SECCOMP_RET_ALLOW),
        ANSWER(SECCOMP_RET_ERRNO | EPERM),
    };
    struct sock_fprog program = {sizeof code / sizeof *code, code};
    return prctl(PR_SET_NO_NEW_PRIVS, 1, 0, 0, 0) == 0 && prctl(PR_SET_SECCOMP, SECCOMP_MODE_FILTER, &program) == 0;
}

static void tell(const char *name, long result) {
    printf("%s: %ld\n", name, outcome(result));
    fflush(stdout);
}

static void run(const char *name, int (*run_once)(void)) {
    pid_t child = fork();
    if (child == 0) {
        tell(name, run_once());
        _exit(5);
    }
    tell("it ended", end_of(child));
}

static int by_execl(void) { return execl("/bin/sh", "sh", "-c", "echo a | cat", NULL); }

static int by_execvp(void) { return execvp("sh", (char *[]){"sh", "-c", "echo a | cat", NULL}); }

static int by_nothing(void) { return execl("/nowhere/sh", "sh", NULL); }

static void others(void) {
    char *words[] = {"true", NULL};
    FILE *stream;
    pid_t pid;
    tell("posix_spawn", posix_spawn(&pid, "/bin/true", NULL, NULL, words, environ));
    tell("system", system("echo a | cat"));
    stream = popen("echo a", "r");
    tell("popen", stream ? 0 : -1);
}

int main(void) {
    tell("as ever", system("echo one | cat") == 0);
    if (!forbid()) {
        printf("no filter\n");
        return 0;
    }
    setenv("PATH", "/nowhere:/bin:/usr/bin", 1);
    run("execl", by_execl);
    run("execvp", by_execvp);
    run("no program", by_nothing);
    others();
    return 0;
}
