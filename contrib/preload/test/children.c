/* Children that a fork makes, with an exec and without: their pipes and sockets, what is closed and when, who reads
   what, and how time goes meanwhile. */
#include "child.h"
#include "trace.h"

#include <fcntl.h>
#include <poll.h>
#include <semaphore.h>
#include <signal.h>
#include <stdlib.h>
#include <string.h>
#include <sys/epoll.h>
#include <sys/ioctl.h>
#include <sys/mman.h>
#include <sys/socket.h>
#include <sys/wait.h>
#include <unistd.h>

extern char **environ;

/* A program whose 0, 1 and 2 are these descriptors, if they aren't below 0. All others are closed. */
static pid_t run(char *const words[], int in, int out, int error) {
    pid_t child = fork();
    int wanted[3] = {in, out, error};
    if (child != 0) return child;
    for (int i = 0; i < 3; i++)
        if (wanted[i] >= 0) dup2(wanted[i], i);
    close_range(3, ~0U, 0);
    execvp(words[0], words);
    _exit(127);
}

#define RUN(in, out, error, ...) run((char *[]){__VA_ARGS__, NULL}, in, out, error)

/* All that comes until the end. */
static void tell_all(const char *name, int fd) {
    char bytes[4096];
    size_t count = 0;
    ssize_t got;
    while ((got = read(fd, bytes + count, sizeof bytes - count)) > 0) count += (size_t)got;
    while (count > 0 && bytes[count - 1] == '\n') count--;
    for (size_t i = 0; i < count; i++)
        if (bytes[i] == '\n') bytes[i] = ' ';
    trace("%s: \"%.*s\", then %ld", name, (int)count, bytes, outcome(got));
}

static void both_ways(void) {
    int in[2], out[2];
    pid_t child;
    pipe(in);
    pipe(out);
    child = RUN(in[0], out[1], -1, "cat");
    close(in[0]);
    close(out[1]);
    trace("written: %ld", outcome(write(in[1], "to cat", 6)));
    close(in[1]);
    tell_all("cat", out[0]);
    trace("cat ended: %d", end_of(child));
    close(out[0]);
}

/* What is written to two numbers of one pipe stays in its order. */
static void one_pipe_twice(void) {
    int out[2];
    pid_t child;
    pipe(out);
    child = RUN(-1, out[1], out[1], "sh", "-c", "echo a; echo b >&2; echo c; echo d >&2; exit 5");
    close(out[1]);
    tell_all("sh", out[0]);
    trace("sh ended: %d", end_of(child));
    close(out[0]);
}

/* The reader is closed first: a child that writes after it finds a broken pipe. */
static void closing_first(void) {
    int in[2], out[2];
    pid_t child;
    pipe(in);
    pipe(out);
    child = RUN(in[0], out[1], -1, "cat");
    close(in[0]);
    close(out[1]);
    close(out[0]);
    trace("written: %ld", outcome(write(in[1], "for nobody", 10)));
    trace("cat ended: %d", end_of(child));
    trace("nobody reads: %ld", outcome(write(in[1], "more", 4)));
    close(in[1]);
}

/* A number on one pipe is for one of several children, whichever reads it. */
static void one_reader_of_many(void) {
    enum { CHILDREN = 4 };
    int work[2], answers[2], sum = 0;
    pid_t children[CHILDREN];
    pipe(work);
    pipe(answers);
    for (int i = 0; i < CHILDREN; i++) {
        children[i] = fork();
        if (children[i] == 0) {
            char number;
            close(work[1]);
            while (read(work[0], &number, 1) == 1) write(answers[1], &number, 1);
            _exit(0);
        }
    }
    close(answers[1]);
    for (char i = 1; i <= 100; i++) write(work[1], &i, 1);
    close(work[1]);
    for (char number; read(answers[0], &number, 1) == 1;) sum += number;
    for (int i = 0; i < CHILDREN; i++)
        if (end_of(children[i]) != 0) trace("a child failed");
    trace("the sum of all answers: %d", sum);
    close(work[0]);
    close(answers[0]);
}

static pid_t idle_child(void) {
    pid_t child = fork();
    if (child == 0) {
        sleep(100);
        _exit(0);
    }
    return child;
}

/* The parent reads what a child could have read, too: its own wake-ups. */
static void own_bytes(void) {
    int ends[2], sides[2];
    pid_t child;
    char bytes[8] = "";
    pipe(ends);
    socketpair(AF_UNIX, SOCK_STREAM, 0, sides);
    write(ends[1], "one", 3);
    trace("before: %ld", outcome(read(sides[0], bytes, 0)));
    child = idle_child();
    usleep(10000);
    trace("own pipe: %ld %s", outcome(read(ends[0], bytes, 3)), bytes);
    for (int i = 0; i < 3; i++) {
        write(ends[1], "two", 3);
        usleep(10000);
        trace("own pipe: %ld %s", outcome(read(ends[0], bytes, 3)), bytes);
    }
    send_to(child, SIGKILL);
    trace("killed: %d", end_of(child));
    trace("own socket: %ld", outcome(write(sides[0], "abc", 3)));
    trace("own socket: %ld %s", outcome(read(sides[1], bytes, 3)), bytes);
    close(ends[0]), close(ends[1]), close(sides[0]), close(sides[1]);
}

/* A child takes only a part of what waits: the parent gets the rest. */
static void shared_bytes(void) {
    int ends[2], done[2];
    pid_t child;
    char bytes[16] = "", none;
    pipe(ends);
    pipe(done);
    child = fork();
    if (child == 0) {
        read(ends[0], bytes, 4);
        write(done[1], bytes, 4);
        _exit(0);
    }
    write(ends[1], "abcdefgh", 8);
    read(done[0], bytes, 4);
    trace("the child has: %.4s", bytes);
    trace("the parent: %ld", outcome(read(ends[0], bytes, sizeof bytes)));
    trace("it has: %.4s, ended: %d", bytes, end_of(child));
    close(done[1]);
    trace("nothing more: %ld", outcome(read(done[0], &none, 1)));
    close(ends[0]), close(ends[1]), close(done[0]);
}

/* A child tells by memory that both share that it has taken what waited. Then it waits no more. */
static void told_by_memory(void) {
    int ends[2], waits = -1;
    char byte = 'x';
    sem_t *told = mmap(NULL, 2 * sizeof *told, PROT_READ | PROT_WRITE, MAP_SHARED | MAP_ANONYMOUS, -1, 0);
    struct pollfd file;
    pid_t child;
    if (sem_init(&told[0], 1, 0) != 0 || sem_init(&told[1], 1, 0) != 0 || pipe(ends) != 0) trace("no ends");
    child = fork();
    if (child == 0) {
        sem_wait(&told[0]);
        read(ends[0], &byte, 1);
        sem_post(&told[1]);
        sem_wait(&told[0]);
        _exit(0);
    }
    write(ends[1], &byte, 1);
    usleep(10000);
    file = (struct pollfd){ends[0], POLLIN, 0};
    trace("it waits: %d", poll(&file, 1, 0));
    sem_post(&told[0]);
    sem_wait(&told[1]);
    trace("no more: %d", poll(&file, 1, 0));
    trace("asked: %ld", outcome(ioctl(ends[0], FIONREAD, &waits)));
    trace("so many: %d", waits);
    sem_post(&told[0]);
    trace("ended: %d", end_of(child));
    munmap(told, 2 * sizeof *told);
    close(ends[0]), close(ends[1]);
}

/* Both halves of a socket end by themselves. */
static void halves(void) {
    int sides[2];
    char bytes[16] = "";
    ssize_t got;
    pid_t child;
    socketpair(AF_UNIX, SOCK_STREAM, 0, sides);
    child = fork();
    if (child == 0) {
        int count = 0;
        close(sides[0]);
        write(sides[1], "last words", 10);
        shutdown(sides[1], SHUT_WR);
        while (read(sides[1], bytes, 1) == 1) count++;
        _exit(count);
    }
    close(sides[1]);
    while ((got = read(sides[0], bytes, sizeof bytes)) > 0) trace("said: %.*s", (int)got, bytes);
    trace("its end: %ld", outcome(got));
    trace("still heard: %ld", outcome(send(sides[0], "seven..", 7, 0)));
    shutdown(sides[0], SHUT_WR);
    trace("it heard: %d", end_of(child));
    trace("nobody there: %ld", outcome(send(sides[0], "x", 1, MSG_NOSIGNAL)));
    close(sides[0]);
}

/* A pair that a child inherited and closed, by exec or its end, goes on here. */
static void closed_copies(void) {
    int sides[2];
    char bytes[4] = "";
    struct pollfd file;
    pid_t child;
    socketpair(AF_UNIX, SOCK_STREAM | SOCK_CLOEXEC | SOCK_NONBLOCK, 0, sides);
    child = RUN(-1, -1, -1, "true");
    trace("true ended: %d", end_of(child));
    file = (struct pollfd){sides[0], POLLIN, 0};
    trace("nothing: %d", poll(&file, 1, 0));
    trace("no end: %ld", outcome(read(sides[0], bytes, 1)));
    trace("across: %ld", outcome(write(sides[1], "abc", 3)));
    trace("came: %ld %s", outcome(read(sides[0], bytes, 3)), bytes);
    close(sides[0]), close(sides[1]);
}

/* Each child has copies of the ends that the parent reads, of its own and of those before it. The bytes are the parent's,
   which reads late, and for the first time. */
static void workers(void) {
    enum { COUNT = 3 };
    int ends[COUNT];
    char bytes[8];
    pid_t children[COUNT];
    for (int i = 0; i < COUNT; i++) {
        int sides[2];
        socketpair(AF_UNIX, SOCK_STREAM, 0, sides);
        ends[i] = sides[0];
        children[i] = fork();
        if (children[i] == 0) {
            dprintf(sides[1], "of %d", i);
            usleep(200000);
            _exit(i);
        }
        close(sides[1]);
    }
    usleep(100000);
    for (int i = 0; i < COUNT; i++) trace("%ld: %.4s", outcome(read(ends[i], bytes, sizeof bytes)), bytes);
    for (int i = 0; i < COUNT; i++) trace("its end: %d", end_of(children[i]));
    for (int i = 0; i < COUNT; i++) trace("nothing more: %ld", outcome(read(ends[i], bytes, 1)));
    for (int i = 0; i < COUNT; i++) close(ends[i]);
}

/* A socket that an instance asks for no more, as after libuv's look whether it takes one, is a child's to read. */
static void asked_before(void) {
    int sides[2], instance = epoll_create1(EPOLL_CLOEXEC);
    struct epoll_event event = {.events = EPOLLIN};
    char bytes[16];
    pid_t child;
    socketpair(AF_UNIX, SOCK_STREAM, 0, sides);
    trace("asked for: %ld", outcome(epoll_ctl(instance, EPOLL_CTL_ADD, sides[0], &event)));
    trace("and no more: %ld", outcome(epoll_ctl(instance, EPOLL_CTL_DEL, sides[0], &event)));
    child = fork();
    if (child == 0) _exit((int)read(sides[0], bytes, sizeof bytes));
    trace("for the child: %ld", outcome(write(sides[1], "seven..", 7)));
    trace("it read: %d", end_of(child));
    close(sides[0]), close(sides[1]), close(instance);
}

static void full(void) {
    int in[2], writes = 0;
    char bytes[1024] = {0};
    struct pollfd file;
    pid_t child;
    pipe2(in, O_NONBLOCK);
    child = RUN(in[0], -1, -1, "sleep", "100");
    close(in[0]);
    while (write(in[1], bytes, sizeof bytes) == sizeof bytes) writes++;
    usleep(20000);
    while (write(in[1], bytes, sizeof bytes) == sizeof bytes) writes++;
    trace("a child that doesn't read: %d bytes", writes * 1024);
    file = (struct pollfd){in[1], POLLOUT, 0};
    trace("no room: %d", poll(&file, 1, 0));
    send_to(child, SIGTERM);
    trace("terminated: %d", end_of(child));
    poll(&file, 1, 1000);
    trace("broken: %d", (file.revents & POLLERR) != 0);
    trace("written: %ld", outcome(write(in[1], bytes, 1)));
    close(in[1]);
}

/* More than a pipe holds is there in whole, though its reader comes late and its writer is gone by then. */
static void late_reader(void) {
    int out[2];
    char room[4096];
    size_t came = 0;
    ssize_t got;
    pid_t child;
    pipe(out);
    child = RUN(-1, out[1], -1, "head", "-c", "69000", "/dev/zero");
    close(out[1]);
    usleep(300000);
    while ((got = read(out[0], room, sizeof room)) > 0) came += (size_t)got;
    trace("read late: %zu, then %ld, ended: %d", came, outcome(got), end_of(child));
    close(out[0]);
}

static void much(void) {
    int in[2], out[2];
    struct passed passed;
    pid_t child;
    pipe2(in, O_CLOEXEC);
    pipe2(out, O_CLOEXEC);
    child = RUN(in[0], out[1], -1, "cat");
    close(in[0]);
    close(out[1]);
    passed = pass_through(in[1], out[0], 1000000);
    trace("there and back: %zu, wrong: %zu, ended: %d", passed.came, passed.wrong, end_of(child));
}

/* Two children, and a pipe between them that the parent made and closed. */
static void pipeline(void) {
    int between[2], out[2];
    pid_t first, second;
    pipe(between);
    pipe(out);
    first = RUN(-1, between[1], -1, "sh", "-c", "echo from one; echo to another");
    second = RUN(between[0], out[1], -1, "tr", "a-z", "A-Z");
    close(between[0]), close(between[1]), close(out[1]);
    tell_all("pipeline", out[0]);
    trace("ended: %d %d", end_of(first), end_of(second));
    close(out[0]);
}

/* The error of an exec comes by a pipe that an exec would have closed. */
static void exec_errors(void) {
    char *const words[] = {"no-such-program", NULL};
    const char *paths[] = {"/no/such/program", "/etc/passwd", "/etc"};
    for (int i = 0; i < 3; i++) {
        int told[2], error = 0;
        pid_t child;
        pipe2(told, O_CLOEXEC);
        child = fork();
        if (child == 0) {
            execv(paths[i], words);
            error = errno;
            write(told[1], &error, sizeof error);
            _exit(1);
        }
        close(told[1]);
        read(told[0], &error, sizeof error);
        trace("exec of %s: %s, ended: %d", paths[i], strerror(error), end_of(child));
        close(told[0]);
    }
    trace("system: %d", WEXITSTATUS(system("exit 9")));
    trace("system of nothing: %d", WEXITSTATUS(system("/no/such/program 2>&-")));
}

/* Numbers, flags and limits are in the child what they are here. */
static void numbers_in_child(void) {
    int ends[2], plain[2], status;
    char text[300], name[64];
    pid_t child;
    pipe2(ends, O_CLOEXEC | O_NONBLOCK);
    pipe(plain);
    child = fork();
    if (child == 0) {
        bool is_so = fcntl(ends[0], F_GETFD) == FD_CLOEXEC && (fcntl(ends[0], F_GETFL) & O_NONBLOCK) &&
                     fcntl(plain[1], F_GETFD) == 0 && !(fcntl(plain[1], F_GETFL) & O_NONBLOCK) &&
                     (fcntl(plain[1], F_GETFL) & O_ACCMODE) == O_WRONLY && fcntl(plain[1] + 1, F_GETFD) == -1;
        snprintf(name, sizeof name, "/proc/self/fd/%d", plain[0]);
        _exit(is_so && access(name, F_OK) == 0 ? 0 : 1);
    }
    trace("numbers and flags: %d", end_of(child));
    snprintf(text, sizeof text, "! test -e /proc/self/fd/%d && echo $LD_PRELOAD here >/proc/self/fd/%d",
             ends[1], plain[1]);
    status = system(text);
    close(plain[1]);
    tell_all("in a shell", plain[0]);
    trace("its end: %d", status);
    close(ends[0]), close(ends[1]), close(plain[0]);
}

/* Handlers of forks may use pipes of the simulated kernel before, and of the real one after. */
static int before_fork[2], in_child = -1;

static void use_pipe_before(void) {
    char byte;
    if (before_fork[1] <= 0) return;
    write(before_fork[1], "x", 1);
    read(before_fork[0], &byte, 1);
}

static void use_pipe_after(void) {
    int ends[2];
    char byte = 'y';
    if (before_fork[1] <= 0) return;
    close(before_fork[0]);
    close(before_fork[1]);
    in_child = pipe(ends) == 0 && write(ends[1], &byte, 1) == 1 && read(ends[0], &byte, 1) == 1 ? 0 : 1;
}

static void handlers_of_forks(void) {
    pid_t child;
    pthread_atfork(use_pipe_before, NULL, use_pipe_after);
    pipe(before_fork);
    child = fork();
    if (child == 0) _exit(in_child == 0 ? 0 : 1);
    trace("handlers of forks: %d", end_of(child));
    close(before_fork[0]);
    close(before_fork[1]);
    before_fork[1] = 0;
}

/* In its handler all that the child wrote can be read without a wait. */
static int heard_fd;
static char heard[64];
static volatile ssize_t heard_count;

static void on_child(int signal) {
    (void)signal;
    heard_count = read(heard_fd, heard, sizeof heard);
}

static void bytes_before_signal(void) {
    int out[2];
    pid_t child;
    pipe2(out, O_NONBLOCK);
    heard_fd = out[0];
    signal(SIGCHLD, on_child);
    child = RUN(-1, out[1], -1, "echo", "all of it");
    close(out[1]);
    while (heard_count == 0) poll(NULL, 0, 1000);
    signal(SIGCHLD, SIG_DFL);
    trace("in the handler: %zd %.9s", heard_count, heard);
    trace("ended: %d", end_of(child));
    close(out[0]);
}

static void *fork_beside(void *result) {
    int out[2];
    pid_t child;
    pipe(out);
    child = RUN(-1, out[1], -1, "echo", "from a thread");
    close(out[1]);
    tell_all("thread", out[0]);
    *(int *)result = end_of(child);
    close(out[0]);
    return NULL;
}

/* A fork from one thread while another one waits. */
static void beside_threads(void) {
    pthread_t thread;
    int ends[2], result = -1;
    char byte;
    pipe(ends);
    pthread_create(&thread, NULL, fork_beside, &result);
    pthread_join(thread, NULL);
    trace("its child: %d", result);
    write(ends[1], "z", 1);
    trace("here: %ld", outcome(read(ends[0], &byte, 1)));
    close(ends[0]), close(ends[1]);
}

/* A time that has to come while a child sleeps, and one that may not come before a child answers. */
static void times(void) {
    int out[2];
    struct pollfd file;
    pid_t child;
    long began = clock_now(), passed;
    pipe(out);
    child = RUN(-1, out[1], -1, "sleep", "100");
    close(out[1]);
    file = (struct pollfd){out[0], POLLIN, 0};
    trace("nothing comes: %d", poll(&file, 1, 200));
    passed = clock_now() - began;
    trace("after 0.2 s: %d", passed >= 200 && passed < 2000);
    send_to(child, SIGKILL);
    trace("killed: %d", end_of(child));
    close(out[0]);
    pipe(out);
    child = RUN(-1, out[1], -1, "sh", "-c", "sleep 0.1; echo soon");
    close(out[1]);
    file.fd = out[0];
    trace("it comes: %d", poll(&file, 1, 30000));
    tell_all("sh", out[0]);
    trace("ended: %d", end_of(child));
    close(out[0]);
}

/* ---- one socket of several ---- */

/* A child that reads a byte of a socket, or writes one, and ends with it. If there is a pipe, it waits for a byte there
   first. */
static pid_t use_socket(const int sides[2], const int go[2], char byte) {
    pid_t child = fork();
    char got = byte, none;
    if (child != 0) return child;
    close(sides[1]);
    if (go && read(go[0], &none, 1) != 1) _exit(1);
    if (byte == 0 ? read(sides[0], &got, 1) != 1 : write(sides[0], &byte, 1) != 1) _exit(1);
    _exit(got);
}

/* The one that comes first is the first one. */
static int end_in_turn(pid_t child, const int go[2]) {
    if (write(go[1], "", 1) != 1) return -1;
    return end_of(child);
}

static void tell_hangup(const char *name, int fd) {
    struct pollfd file = {fd, POLLIN, 0};
    int found = poll(&file, 1, 0);
    trace("%s: %d, %#x", name, found, (unsigned int)file.revents);
}

/* What one of them leaves is there for the next one. */
static void socket_of_children(void) {
    pid_t children[3];
    int sides[2], go[3][2];
    for (int i = 0; i < 3; i++) pipe(go[i]);
    socketpair(AF_UNIX, SOCK_STREAM, 0, sides);
    for (int i = 0; i < 3; i++) children[i] = use_socket(sides, go[i], 0);
    close(sides[0]);
    trace("to three children: %ld", outcome(write(sides[1], "abc", 3)));
    for (int i = 0; i < 3; i++) trace("one has read %c", end_in_turn(children[i], go[i]));
    trace("to none: %ld", outcome(write(sides[1], "d", 1)));
    close(sides[1]);
    socketpair(AF_UNIX, SOCK_STREAM, 0, sides);
    for (int i = 0; i < 2; i++) children[i] = use_socket(sides, go[i], (char)('x' + i));
    close(sides[0]);
    for (int i = 0; i < 2; i++) trace("one has written %c", end_in_turn(children[i], go[i]));
    tell_all("of two children", sides[1]);
    close(sides[1]);
    for (int i = 0; i < 6; i++) close(go[i / 2][i % 2]);
}

/* The program has it, too: it gets what a child has left, and the other end hears of no end. */
static void socket_of_both(void) {
    char bytes[8] = "";
    int sides[2];
    pid_t first, second;
    socketpair(AF_UNIX, SOCK_STREAM, 0, sides);
    write(sides[1], "abcd", 4);
    first = use_socket(sides, NULL, 0);
    trace("the first child has read %c", end_of(first));
    tell_hangup("no end", sides[1]);
    second = use_socket(sides, NULL, 0);
    trace("the second one %c", end_of(second));
    trace("the program: %ld, %s", outcome(read(sides[0], bytes, sizeof bytes - 1)), bytes);
    first = use_socket(sides, NULL, 'x');
    trace("written: %c, %ld, %s", end_of(first), outcome(read(sides[1], bytes, 1)), bytes);
    tell_hangup("no end", sides[1]);
    close(sides[0]);
    tell_hangup("the end", sides[1]);
    close(sides[1]);
}

/* A child of the child has it still, when the child has ended. */
static void socket_of_grandchild(void) {
    char bytes[8] = "";
    int sides[2], go[2], done[2];
    pid_t child;
    socketpair(AF_UNIX, SOCK_STREAM, 0, sides);
    pipe(go);
    pipe(done);
    child = fork();
    if (child == 0) {
        char byte;
        if (fork() != 0) _exit(6);
        close(sides[1]);
        if (read(go[0], &byte, 1) == 1 && write(sides[0], "of a grandchild" + 5, 7) == 7) write(done[1], "x", 1);
        _exit(0);
    }
    trace("the child has ended: %d", end_of(child));
    write(go[1], "x", 1);
    trace("done: %ld", outcome(read(done[0], bytes, 1)));
    trace("from it: %ld, %s", outcome(read(sides[1], bytes, sizeof bytes - 1)), bytes);
    close(sides[0]);
    for (int i = 0; i < 2; i++) close(go[i]), close(done[i]);
    tell_all("then", sides[1]);
    close(sides[1]);
}

/* More than there may be at once: none stays because the program still has the socket. */
static void sockets_that_stay(void) {
    int sides[2], count = 0;
    socketpair(AF_UNIX, SOCK_STREAM | SOCK_CLOEXEC, 0, sides);
    while (count < 70 && end_of(RUN(-1, -1, -1, "true")) == 0) count++;
    trace("%d children", count);
    trace("written: %ld", outcome(write(sides[1], "x", 1)));
    trace("read: %ld", outcome(read(sides[0], (char[1]){0}, 1)));
    close(sides[0]);
    tell_hangup("the end", sides[1]);
    close(sides[1]);
}

int main(void) {
    signal(SIGPIPE, SIG_IGN);
    trace("begin");
    signal(SIGPIPE, SIG_DFL);
    both_ways();
    one_pipe_twice();
    signal(SIGPIPE, SIG_IGN);
    one_reader_of_many();
    own_bytes();
    shared_bytes();
    told_by_memory();
    halves();
    closed_copies();
    workers();
    asked_before();
    full();
    late_reader();
    much();
    pipeline();
    exec_errors();
    numbers_in_child();
    handlers_of_forks();
    bytes_before_signal();
    beside_threads();
    times();
    closing_first();
    socket_of_children();
    socket_of_both();
    socket_of_grandchild();
    sockets_that_stay();
    return 0;
}
