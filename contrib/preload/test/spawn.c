/* posix_spawn with all that it can be asked for, and pidfds beside pipes. */
#include "child.h"
#include "trace.h"

#include <fcntl.h>
#include <poll.h>
#include <sched.h>
#include <signal.h>
#include <spawn.h>
#include <stdlib.h>
#include <string.h>
#include <sys/epoll.h>
#include <sys/pidfd.h>
#include <sys/select.h>
#include <sys/syscall.h>
#include <sys/wait.h>
#include <unistd.h>

extern char **environ;

static void tell_all(const char *name, int fd) {
    char bytes[4096];
    size_t count = 0;
    ssize_t got;
    while ((got = read(fd, bytes + count, sizeof bytes - count)) > 0) count += (size_t)got;
    while (count > 0 && bytes[count - 1] == '\n') count--;
    for (size_t i = 0; i < count; i++)
        if (bytes[i] == '\n') bytes[i] = ' ';
    trace("%s: \"%.*s\"", name, (int)count, bytes);
}

/* What a shell says whose 1 is a pipe; without a command, which signals are blocked in a program, and ignored. */
static void ask(const char *name, const char *command, posix_spawn_file_actions_t *actions,
                const posix_spawnattr_t *attributes) {
    char *of_shell[] = {"sh", "-c", (char *)command, NULL};
    char *of_sed[] = {"sed", "-n", "s/Sig[BI].*\\(....\\)$/\\1/p", "/proc/self/status", NULL};
    char **words = command ? of_shell : of_sed;
    int out[2], error;
    pid_t child = -1;
    pipe2(out, O_CLOEXEC);
    posix_spawn_file_actions_adddup2(actions, out[1], 1);
    error = posix_spawnp(&child, words[0], actions, attributes, words, environ);
    close(out[1]);
    if (error == 0) tell_all(name, out[0]);
    trace("%s: %d, ended: %d", name, error, error == 0 ? end_of(child) : 0);
    close(out[0]);
}

static void files(void) {
    char *words[] = {"sh", "-c", "ls /proc/self/fd | wc -l", NULL};
    posix_spawn_file_actions_t actions;
    char command[150];
    int other[2], kept;
    pid_t child = -1;
    pipe(other);
    posix_spawn_file_actions_init(&actions);
    trace("dup2 of none: %d", posix_spawn_file_actions_adddup2(&actions, -1, 5));
    trace("close of none: %d", posix_spawn_file_actions_addclose(&actions, -1));
    posix_spawn_file_actions_addopen(&actions, 107, "/etc/hostname", O_RDONLY, 0);
    posix_spawn_file_actions_addopen(&actions, 108, "/dev/null", O_WRONLY, 0);
    posix_spawn_file_actions_addclose(&actions, 108);
    posix_spawn_file_actions_addclose(&actions, 199);
    posix_spawn_file_actions_addchdir_np(&actions, "/usr/lib");
    posix_spawn_file_actions_adddup2(&actions, other[0], 109);
    kept = dup3(other[0], other[0] + 50, O_CLOEXEC);
    posix_spawn_file_actions_adddup2(&actions, kept, kept);
    snprintf(command, sizeof command,
             "pwd; cd /proc/self/fd; test -e 107 && echo 7; test -e 108 || echo no 8; test -p 109 && echo 9;"
             "test -p %d && echo kept", kept);
    ask("files", command, &actions, NULL);
    close(kept);
    posix_spawn_file_actions_destroy(&actions);
    posix_spawn_file_actions_init(&actions);
    posix_spawn_file_actions_adddup2(&actions, other[1], 1);
    posix_spawn_file_actions_addclosefrom_np(&actions, 3);
    trace("closefrom: %d", posix_spawnp(&child, "sh", &actions, NULL, words, environ));
    close(other[1]);
    tell_all("closefrom", other[0]);
    trace("closefrom, ended: %d", end_of(child));
    posix_spawn_file_actions_destroy(&actions);
    posix_spawn_file_actions_init(&actions);
    posix_spawn_file_actions_addopen(&actions, 107, "/no/such/file", O_RDONLY, 0);
    ask("a missing file", "echo no", &actions, NULL);
    posix_spawn_file_actions_destroy(&actions);
    posix_spawn_file_actions_init(&actions);
    posix_spawn_file_actions_addfchdir_np(&actions, other[0]);
    ask("a pipe as a folder", "echo no", &actions, NULL);
    posix_spawn_file_actions_destroy(&actions);
    close(other[0]);
}

static void attributes(void) {
    posix_spawn_file_actions_t actions;
    posix_spawnattr_t wanted;
    struct sched_param parameter = {0};
    sigset_t set;
    posix_spawn_file_actions_init(&actions);
    posix_spawnattr_init(&wanted);
    sigemptyset(&set);
    sigaddset(&set, SIGUSR1);
    posix_spawnattr_setsigmask(&wanted, &set);
    sigemptyset(&set);
    sigaddset(&set, SIGUSR2);
    posix_spawnattr_setsigdefault(&wanted, &set);
    posix_spawnattr_setschedpolicy(&wanted, SCHED_BATCH);
    posix_spawnattr_setschedparam(&wanted, &parameter);
    posix_spawnattr_setflags(&wanted, POSIX_SPAWN_SETSIGMASK | POSIX_SPAWN_SETSIGDEF | POSIX_SPAWN_SETPGROUP |
                                          POSIX_SPAWN_SETSCHEDULER | POSIX_SPAWN_RESETIDS);
    signal(SIGUSR2, SIG_IGN);
    signal(SIGHUP, SIG_IGN);
    ask("signals", NULL, &actions, &wanted);
    posix_spawn_file_actions_destroy(&actions);
    posix_spawn_file_actions_init(&actions);
    ask("group", "ps -o pgid= -p $$ | grep -qw $$ && echo its own; ps -o cls= -p $$", &actions, &wanted);
    posix_spawn_file_actions_destroy(&actions);
    posix_spawn_file_actions_init(&actions);
    posix_spawnattr_setflags(&wanted, POSIX_SPAWN_SETSID);
    ask("session", "ps -o sid= -p $$ | grep -qw $$ && echo its own", &actions, &wanted);
    posix_spawnattr_destroy(&wanted);
    posix_spawn_file_actions_destroy(&actions);
    signal(SIGUSR2, SIG_DFL);
    signal(SIGHUP, SIG_DFL);
}

static void errors(void) {
    char *const words[] = {"nothing", NULL};
    pid_t child;
    trace("no program: %d", posix_spawn(&child, "/no/such/program", NULL, NULL, words, environ));
    trace("no program in PATH: %d", posix_spawnp(&child, "no-such-program", NULL, NULL, words, environ));
    trace("no name: %d", posix_spawnp(&child, "", NULL, NULL, words, environ));
    trace("no right: %d", posix_spawn(&child, "/etc/passwd", NULL, NULL, words, environ));
    trace("nobody to wait for: %ld", outcome(waitpid(-1, NULL, WNOHANG)));
}

/* A pidfd in an instance, in poll and in waitid, beside the pipe of its child. */
static void pidfds(void) {
    char *words[] = {"sh", "-c", "read x; echo $x; exit 7", NULL};
    posix_spawn_file_actions_t actions;
    struct epoll_event wanted = {.events = EPOLLIN | EPOLLOUT}, shown[4];
    struct pollfd file;
    fd_set set;
    siginfo_t info = {0};
    int in[2], out[2], ep = epoll_create1(0), fd, count;
    char byte;
    pid_t child;
    pipe2(in, O_CLOEXEC), pipe2(out, O_CLOEXEC);
    posix_spawn_file_actions_init(&actions);
    posix_spawn_file_actions_adddup2(&actions, in[0], 0);
    posix_spawn_file_actions_adddup2(&actions, out[1], 1);
    posix_spawn(&child, "/bin/sh", &actions, NULL, words, environ);
    posix_spawn_file_actions_destroy(&actions);
    close(in[0]), close(out[1]);
    fd = (int)syscall(SYS_pidfd_open, child, 0);
    trace("close-on-exec: %d", fcntl(fd, F_GETFD));
    trace("read: %ld", outcome(read(fd, &byte, 1)));
    trace("write: %ld", outcome(write(fd, "12345678", 8)));
    trace("added: %ld", outcome(epoll_ctl(ep, EPOLL_CTL_ADD, fd, &wanted)));
    trace("nothing: %d", epoll_wait(ep, shown, 4, 20));
    file = (struct pollfd){fd, POLLIN | POLLOUT, 0};
    trace("nothing: %d", poll(&file, 1, 0));
    trace("not yet: %ld, %d", outcome(waitid(P_PIDFD, (id_t)fd, &info, WEXITED | WNOHANG)), info.si_pid);
    trace("signal 0: %ld", outcome(pidfd_send_signal(fd, 0, NULL, 0)));
    write(in[1], "go\n", 3);
    count = epoll_wait(ep, shown, 4, 30000);
    trace("it ended: %d, %#x", count, count > 0 ? shown[0].events : 0);
    tell_all("it said", out[0]);
    count = poll(&file, 1, 0);
    trace("poll: %d, %#x", count, file.revents);
    FD_ZERO(&set);
    FD_SET(fd, &set);
    count = select(fd + 1, &set, NULL, NULL, NULL);
    trace("select: %d, %d", count, FD_ISSET(fd, &set) != 0);
    trace("waitid: %ld, %d, %d", outcome(waitid(P_PIDFD, (id_t)fd, &info, WEXITED)), info.si_pid == child,
          info.si_status);
    trace("gone: %ld", outcome(waitid(P_PIDFD, (id_t)fd, &info, WEXITED)));
    trace("no process: %ld", outcome(pidfd_open(child, 0)));
    trace("no flags: %ld", outcome(pidfd_open(getpid(), 1)));
    close(fd), close(ep), close(in[1]), close(out[0]);
}

/* A child that is stopped and goes on. */
static void stopped(void) {
    char *words[] = {"sleep", "100", NULL};
    int status = 0;
    pid_t child = -1;
    posix_spawnp(&child, "sleep", NULL, NULL, words, environ);
    send_to(child, SIGSTOP);
    waitpid(child, &status, WUNTRACED);
    trace("stopped: %d %d", WIFSTOPPED(status), WSTOPSIG(status));
    send_to(child, SIGCONT);
    waitpid(child, &status, WCONTINUED);
    trace("goes on: %d", WIFCONTINUED(status));
    send_to(child, SIGTERM);
    trace("ended: %d", end_of(child));
}

/* So many descriptors has this process, told by a child that looks some times: who reads in /proc has one for a
   moment. */
static void count_descriptors(const char *name) {
    char command[150];
    posix_spawn_file_actions_t actions;
    static int first = -1;
    int out[2], count;
    char *words[] = {"sh", "-c", command, NULL}, bytes[32] = "";
    pid_t child;
    pipe2(out, O_CLOEXEC);
    posix_spawn_file_actions_init(&actions);
    posix_spawn_file_actions_adddup2(&actions, out[1], 1);
    snprintf(command, sizeof command,
             "for i in 1 2 3 4 5 6; do sleep 0.1; ls /proc/%d/fd | wc -l; done | sort -n | head -n 1", getpid());
    posix_spawn(&child, "/bin/sh", &actions, NULL, words, environ);
    posix_spawn_file_actions_destroy(&actions);
    close(out[1]);
    for (ssize_t at = 0, got; (got = read(out[0], bytes + at, sizeof bytes - 1 - (size_t)at)) > 0;) at += got;
    close(out[0]);
    end_of(child);
    count = atoi(bytes);
    if (first < 0) first = count;
    trace("%s: %d more", name, count - first);
}

static void in_a_row(void) {
    enum { CHILDREN = 1000 };
    char *words[] = {"true", NULL};
    int failed = 0, ends[2];
    count_descriptors("at first");
    for (int i = 0; i < CHILDREN; i++) {
        pid_t child;
        pipe2(ends, O_CLOEXEC);
        if (posix_spawnp(&child, "true", NULL, NULL, words, environ) != 0) {
            failed++;
        } else {
            int fd = pidfd_open(child, 0);
            failed += end_of(child) != 0;
            close(fd);
        }
        close(ends[0]), close(ends[1]);
    }
    trace("%d children, %d failed", CHILDREN, failed);
    count_descriptors("at last");
}

int main(void) {
    trace("begin");
    files();
    attributes();
    errors();
    pidfds();
    stopped();
    in_a_row();
    usleep(100000);
    trace("end");
    return 0;
}
