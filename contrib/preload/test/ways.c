/* The ways to make a child, to hear of its end, and to close what it shouldn't have, among which programs choose. */
#include "child.h"
#include "trace.h"

#include <fcntl.h>
#include <poll.h>
#include <signal.h>
#include <stdlib.h>
#include <string.h>
#include <sys/resource.h>
#include <sys/stat.h>
#include <sys/wait.h>
#include <unistd.h>

/* All that comes until the end. */
static void tell_all(const char *name, int fd) {
    char bytes[256];
    size_t count = 0;
    ssize_t got;
    while ((got = read(fd, bytes + count, sizeof bytes - count)) > 0) count += (size_t)got;
    while (count > 0 && bytes[count - 1] == '\n') count--;
    trace("%s: \"%.*s\", then %ld", name, (int)count, bytes, outcome(got));
}

/* ---- making ---- */

/* What a child of vfork uses isn't on the stack of its parent. */
static int out[2];
static char *echo[] = {"echo", "said", NULL};

static void by_vfork(void) {
    pid_t child;
    pipe(out);
    child = vfork();
    if (child == 0) {
        dup2(out[1], 1);
        execvp(echo[0], echo);
        _exit(127);
    }
    close(out[1]);
    tell_all("vfork", out[0]);
    trace("its end: %d", end_of(child));
    close(out[0]);
    child = vfork();
    if (child == 0) _exit(3);
    trace("without a program: %d", end_of(child));
}

/* Handlers of forks don't run. */
static int handled;
static void on_fork(void) { handled++; }

static void by_fork_alone(void) {
    pid_t child;
    pthread_atfork(on_fork, on_fork, NULL);
    pipe(out);
    child = _Fork();
    if (child == 0) {
        write(out[1], "of _Fork", 8);
        _exit(4);
    }
    close(out[1]);
    tell_all("_Fork", out[0]);
    trace("its end: %d, handlers: %d", end_of(child), handled);
    close(out[0]);
}

/* ---- waiting ---- */

static pid_t ends_with(int status) {
    pid_t child = fork();
    if (child == 0) _exit(status);
    return child;
}

static void tell_wait(const char *name, pid_t got, pid_t child, const int *status) {
    trace("%s: %d, %d", name, got == child, WIFEXITED(*status) ? WEXITSTATUS(*status) : -1);
}

static void waits(void) {
    struct rusage usage = {0};
    siginfo_t info = {0};
    int status = 0;
    pid_t child = ends_with(1);
    tell_wait("wait", wait(&status), child, &status);
    child = ends_with(2);
    tell_wait("wait3", wait3(&status, 0, &usage), child, &status);
    child = ends_with(3);
    tell_wait("wait4", wait4(child, &status, 0, &usage), child, &status);
    child = ends_with(4);
    trace("no status: %d", waitpid(0, NULL, 0) == child);
    child = ends_with(5);
    trace("waitid leaves it: %ld", outcome(waitid(P_ALL, 0, &info, WEXITED | WNOWAIT)));
    trace("%d, %d, %d", info.si_pid == child, info.si_status, info.si_code == CLD_EXITED);
    trace("and takes it: %ld", outcome(waitid(P_PID, (id_t)child, &info, WEXITED)));
    trace("no more: %ld", outcome(waitid(P_ALL, 0, &info, WEXITED)));
    trace("no more: %ld", outcome(wait(NULL)));
}

/* What a handler of SIGCHLD does that takes all that have ended. */
enum { CHILDREN = 5 };
static volatile sig_atomic_t taken, sum_of_ends;

static void take_ended(int signal) {
    int status, saved = errno;
    (void)signal;
    while (waitpid(-1, &status, WNOHANG) > 0) {
        taken++;
        sum_of_ends += WEXITSTATUS(status);
    }
    errno = saved;
}

static void in_handler(void) {
    struct sigaction action = {.sa_handler = take_ended, .sa_flags = SA_RESTART};
    char bytes[2 * CHILDREN];
    size_t count = 0;
    sigaction(SIGCHLD, &action, NULL);
    pipe(out);
    for (int i = 1; i <= CHILDREN; i++) {
        pid_t child = fork();
        if (child == 0) _exit(write(out[1], "x", 1) == 1 ? i : 100);
    }
    close(out[1]);
    for (ssize_t got; (got = read(out[0], bytes, sizeof bytes)) > 0;) count += (size_t)got;
    while (taken < CHILDREN) poll(NULL, 0, 1000);
    trace("in a handler: %d, the sum of %d, bytes: %zu", taken, sum_of_ends, count);
    signal(SIGCHLD, SIG_DFL);
    close(out[0]);
}

/* ---- closing ---- */

/* A child that says something, and again after each byte that it is sent. */
static pid_t answer(const int in[2]) {
    pid_t child = fork();
    if (child == 0) {
        char byte;
        close(in[1]), close(out[0]);
        do write(out[1], "answer", 6);
        while (read(in[0], &byte, 1) == 1);
        _exit(5);
    }
    close(in[0]), close(out[1]);
    return child;
}

static pid_t answering(int in[2]) {
    pipe(in);
    pipe(out);
    return answer(in);
}

static void tell_answer(const char *name) {
    char bytes[16];
    ssize_t got = read(out[0], bytes, sizeof bytes);
    trace("%s: %.*s", name, got > 0 ? (int)got : 0, bytes);
}

/* A program that closes all that it knows nothing of doesn't close what joins it to its child. */
static void closes_all(void) {
    int in[2], low, high;
    pid_t child = answering(in);
    low = in[1] < out[0] ? in[1] : out[0];
    high = in[1] < out[0] ? out[0] : in[1];
    tell_answer("before");
    for (int fd = 3; fd < 5000; fd++)
        if (fd != low && fd != high) close(fd);
    if (low + 1 < high) close_range((unsigned int)low + 1, (unsigned int)high - 1, 0);
    close_range((unsigned int)high + 1, ~0U, 0);
    closefrom(high + 1);
    trace("sent: %ld", outcome(write(in[1], "x", 1)));
    tell_answer("all others are closed");
    close(in[1]);
    trace("its end: %d", end_of(child));
    close(out[0]);
}

/* All numbers are taken that real files may have, and none is left for the child's pipes. */
static void all_are_taken(void) {
    enum { MOST = 600 };
    struct rlimit before, few;
    int in[2], others[MOST], count = 0;
    pid_t child;
    getrlimit(RLIMIT_NOFILE, &before);
    few = (struct rlimit){MOST, before.rlim_max};
    setrlimit(RLIMIT_NOFILE, &few);
    pipe(in);
    pipe(out);
    while (count < MOST && (others[count] = dup(0)) >= 0) count++;
    trace("all are taken: %d", errno == EMFILE);
    child = answer(in);
    tell_answer("it has its pipes");
    close(in[1]);
    trace("its end: %d", end_of(child));
    close(out[0]);
    while (count > 0) close(others[--count]);
    setrlimit(RLIMIT_NOFILE, &before);
}

/* A child whose 1 is the pipe closes 0, 1 and 2: the end comes while it lives. */
static void closes_streams(void) {
    int in[2];
    pid_t child;
    pipe(in);
    pipe(out);
    child = fork();
    if (child == 0) {
        char byte;
        dup2(out[1], 1);
        close_range((unsigned int)out[0], (unsigned int)out[1], 0);
        write(1, "before", 6);
        close_range(0, 2, 0);
        close(in[1]);
        _exit(read(in[0], &byte, 1) == 1 ? 6 : 7);
    }
    close(in[0]), close(out[1]);
    tell_all("its 1", out[0]);
    trace("it lives: %ld", outcome(waitpid(child, NULL, WNOHANG)));
    trace("sent: %ld", outcome(write(in[1], "x", 1)));
    trace("its end: %d", end_of(child));
    close(in[1]), close(out[0]);
}

/* A child that closes all but what it was given, and the pipe that tells the error of its exec. */
static void closes_but_error(void) {
    const char *paths[] = {"/bin/true", "/no/such/program", "/etc/passwd"};
    char *words[] = {"program", NULL};
    for (int i = 0; i < 3; i++) {
        int told[2], error = 0;
        pid_t child;
        pipe2(told, O_CLOEXEC);
        child = fork();
        if (child == 0) {
            if (told[1] > 3) close_range(3, (unsigned int)told[1] - 1, 0);
            close_range((unsigned int)told[1] + 1, ~0U, 0);
            execv(paths[i], words);
            error = errno;
            write(told[1], &error, sizeof error);
            _exit(1);
        }
        close(told[1]);
        trace("%s: %ld", paths[i], outcome(read(told[0], &error, sizeof error)));
        trace("its error: %s, its end: %d", strerror(error), end_of(child));
        close(told[0]);
    }
}

/* ---- much ---- */

static void write_all(int fd, const char *bytes, size_t count) {
    while (count > 0) {
        ssize_t taken_now = write(fd, bytes, count);
        if (taken_now <= 0) _exit(1);
        bytes += taken_now;
        count -= (size_t)taken_now;
    }
}

/* Reads a little at a time, and gives it back. */
static _Noreturn void be_slow(const int in[2]) {
    char bytes[3000];
    ssize_t got;
    close(in[1]), close(out[0]);
    while ((got = read(in[0], bytes, sizeof bytes)) > 0) {
        usleep(500);
        write_all(out[1], bytes, (size_t)got);
    }
    _exit(8);
}

static void slowly(void) {
    int in[2];
    struct passed passed;
    pid_t child;
    pipe(in), pipe(out);
    child = fork();
    if (child == 0) be_slow(in);
    close(in[0]), close(out[1]);
    passed = pass_through(in[1], out[0], 1 << 20);
    trace("through a slow child: %zu, wrong: %zu, its end: %d", passed.came, passed.wrong, end_of(child));
}

/* One that never stops is killed. All that it wrote comes, and then the end. */
static void killed(void) {
    size_t came = 0, wrong = 0;
    char bytes[1000];
    pid_t child;
    pipe(out);
    child = fork();
    if (child == 0) {
        memset(bytes, 'y', sizeof bytes);
        for (;;) write_all(out[1], bytes, sizeof bytes);
    }
    close(out[1]);
    for (ssize_t got = 1; got > 0; came += (size_t)got) {
        got = read(out[0], bytes, sizeof bytes);
        for (ssize_t i = 0; i < got; i++) wrong += bytes[i] != 'y';
        if (came < 100000 && came + (size_t)got >= 100000) send_to(child, SIGKILL);
    }
    trace("all that it wrote: %d, wrong: %zu, its end: %d", came >= 100000, wrong, end_of(child));
    close(out[0]);
}

/* The program sleeps in the real kernel until its child has written more than a real pipe of a page holds. */
static void in_real_wait(void) {
    enum { ALL = 20000 };
    char folder[] = "/tmp/nippersage-ways-XXXXXX", path[64], bytes[ALL] = {0};
    size_t came = 0;
    ssize_t got;
    pid_t child;
    int fifo;
    snprintf(path, sizeof path, "%s/fifo", mkdtemp(folder));
    mkfifo(path, 0600);
    pipe(out);
    child = fork();
    if (child == 0) {
        write_all(out[1], bytes, ALL);
        write_all(open(path, O_WRONLY), "x", 1);
        _exit(9);
    }
    close(out[1]);
    fifo = open(path, O_RDONLY);
    trace("a real wait: %ld", outcome(read(fifo, bytes, 1)));
    while ((got = read(out[0], bytes, sizeof bytes)) > 0) came += (size_t)got;
    trace("meanwhile came: %zu, its end: %d", came, end_of(child));
    close(fifo), close(out[0]);
    unlink(path);
    rmdir(folder);
}

/* ---- beside threads ---- */

static void *read_one(void *fd) {
    char byte;
    return read(*(int *)fd, &byte, 1) == 1 ? fd : NULL;
}

/* A fork while another thread waits for bytes that come after it. */
static void beside_reader(void) {
    int ends[2], in[2];
    void *has_read = NULL;
    pthread_t thread;
    pid_t child;
    pipe(ends);
    pthread_create(&thread, NULL, read_one, &ends[0]);
    usleep(20000);
    child = answering(in);
    tell_answer("beside a thread that waits");
    close(in[1]);
    trace("its end: %d", end_of(child));
    write(ends[1], "z", 1);
    pthread_join(thread, &has_read);
    trace("the thread: %d", has_read != NULL);
    close(out[0]), close(ends[0]), close(ends[1]);
}

int main(void) {
    signal(SIGPIPE, SIG_IGN);
    trace("begin");
    by_vfork();
    waits();
    in_handler();
    closes_all();
    all_are_taken();
    closes_streams();
    closes_but_error();
    slowly();
    killed();
    in_real_wait();
    beside_reader();
    by_fork_alone();
    usleep(10000);
    trace("end");
    return 0;
}
