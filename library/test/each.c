/* Each function of nippersage.h: what it does, and an error of each. Answers are those of the manual pages. */
#include "check.h"

static struct nippersage_kernel *kernel;
static struct nippersage_task one, two;

/* The library says whether its kernel was proved. */
static void version(void) {
    const char *made = nippersage_version();
    int length = (int)strcspn(made, ",");
    IS(length > 4 && strspn(made, "0123456789.") == (size_t)length, 1);
    IS(strcmp(made + length, ", unproved") == 0 || strncmp(made + length, ", proved in logic ", 18) == 0, 1);
}

/* Each limit at both ends of its range, and one beyond: the kernel and the name agree. */
static void limits_by_name(void) {
    static const struct {
        const char *name;
        size_t place;
        uint32_t least, most;
    } all[] = {
        {"descriptors", offsetof(struct nippersage_limits, descriptors), 3, 65536},
        {"files", offsetof(struct nippersage_limits, files), 1, 1000000},
        {"processes", offsetof(struct nippersage_limits, processes), 1, 10000},
        {"watches", offsetof(struct nippersage_limits, watches), 0, 1000000},
        {"pipe_bytes", offsetof(struct nippersage_limits, pipe_bytes), 4096, 1048576},
        {"sock_bytes", offsetof(struct nippersage_limits, sock_bytes), 1, 1048576},
    };
    IS(nippersage_bad_limit(NULL) == NULL, 1);
    for (size_t i = 0; i < sizeof all / sizeof *all; i++) {
        const uint32_t values[] = {all[i].least, all[i].most, all[i].most + 1, all[i].least - 1};
        for (int j = 0; j < (all[i].least > 0 ? 4 : 3); j++) {
            struct nippersage_limits limits = {1024, 4096, 64, 4096, 65536, 65536};
            struct nippersage_kernel *made = NULL;
            const char *name;
            int is_within = j < 2;
            memcpy((char *)&limits + all[i].place, &values[j], sizeof values[j]);
            name = nippersage_bad_limit(&limits);
            IS(!name, is_within);
            IS(is_within || strcmp(name, all[i].name) == 0, 1);
            IS(nippersage_open(&limits, &made), is_within ? 0 : -EINVAL);
            nippersage_free(made);
        }
    }
}

static void opening(void) {
    struct nippersage_limits limits = {2, 4096, 64, 4096, 65536, 65536};
    struct nippersage_kernel *none = NULL;
    IS(nippersage_open(&limits, &none), -EINVAL);
    limits.descriptors = 3;
    limits.watches = 1000001;
    IS(nippersage_open(&limits, &none), -EINVAL);
    IS(none == NULL, 1);
    IS(nippersage_open(NULL, NULL), -EFAULT);
    limits_by_name();
    IS(nippersage_open(NULL, &kernel), 0);
    one = (struct nippersage_task){kernel, 1, 1};
    two = (struct nippersage_task){kernel, 2, 1};
    nippersage_free(NULL);
}

static void pipes(void) {
    struct nippersage_task nobody = {NULL, 1, 1};
    char bytes[8];
    int ends[2];
    IS(nippersage_pipe2(one, ends, O_CLOEXEC | O_NONBLOCK), 0);
    IS(ends[0], 3);
    IS(ends[1], 4);
    IS(nippersage_pipe2(one, ends, O_APPEND), -EINVAL);
    IS(nippersage_pipe2(one, NULL, 0), -EFAULT);
    IS(nippersage_pipe2(nobody, ends, 0), -EINVAL);
    IS(nippersage_read(one, 3, bytes, 8), -EAGAIN);
    IS(nippersage_write(one, 4, "abcde", 5), 5);
    IS(nippersage_write(one, 3, "x", 1), -EBADF);
    IS(nippersage_write(one, 4, NULL, 1), -EFAULT);
    IS(nippersage_read(one, 3, NULL, 1), -EFAULT);
    IS(nippersage_read(one, 3, bytes, 3), 3);
    IS(memcmp(bytes, "abc", 3), 0);
    IS(nippersage_read(one, 3, bytes, 8), 2);
    IS(memcmp(bytes, "de", 2), 0);
    IS(nippersage_close(one, 3), 0);
    IS(nippersage_close(one, 3), -EBADF);
    IS(nippersage_write(one, 4, "x", 1), -EPIPE);
    IS(nippersage_close(one, 4), 0);
}

static void vectors(void) {
    char first[2], second[4];
    struct iovec in[3] = {{first, 2}, {NULL, 0}, {second, 4}};
    struct iovec out[2] = {{"ab", 2}, {"cde", 3}};
    int ends[2];
    IS(nippersage_socketpair(one, AF_UNIX, SOCK_STREAM | SOCK_CLOEXEC | SOCK_NONBLOCK, 0, ends), 0);
    IS(nippersage_socketpair(one, AF_INET, SOCK_STREAM, 0, ends), -EAFNOSUPPORT);
    IS(nippersage_socketpair(one, AF_UNIX, SOCK_DGRAM, 0, ends), -ESOCKTNOSUPPORT);
    IS(nippersage_socketpair(one, AF_UNIX, SOCK_STREAM, 7, ends), -EPROTONOSUPPORT);
    IS(nippersage_writev(one, ends[0], out, 2), 5);
    IS(nippersage_readv(one, ends[1], in, 3), 5);
    IS(memcmp(first, "ab", 2), 0);
    IS(memcmp(second, "cde", 3), 0);
    IS(nippersage_readv(one, ends[1], in, 3), -EAGAIN);
    IS(nippersage_readv(one, ends[1], in, -1), -EINVAL);
    IS(nippersage_writev(one, ends[0], NULL, 1), -EFAULT);
    IS(nippersage_writev(one, ends[0], out, 1025), -EINVAL);
    IS(nippersage_shutdown(one, ends[0], SHUT_WR), 0);
    IS(nippersage_shutdown(one, ends[0], 9), -EINVAL);
    IS(nippersage_shutdown(one, 0, SHUT_WR), -ENOTSOCK);
    IS(nippersage_readv(one, ends[1], in, 3), 0);
    IS(nippersage_write(one, ends[1], "ab", 2), 2);
    IS(nippersage_shutdown(one, ends[0], SHUT_RD), 0);
    IS(nippersage_write(one, ends[1], "c", 1), -EPIPE);
    IS(nippersage_read(one, ends[0], first, 2), 2);
    IS(nippersage_read(one, ends[0], first, 2), 0);
    IS(nippersage_shutdown(one, ends[1], SHUT_RDWR), 0);
    IS(nippersage_close(one, ends[0]), 0);
    IS(nippersage_close(one, ends[1]), 0);
}

/* What a socket alone is asked. */
static void sockets(void) {
    struct nippersage_name name = {7, 7};
    char bytes[8];
    int ends[2], counter = nippersage_eventfd(one, 1, 0);
    IS(nippersage_socketpair(one, AF_UNIX, SOCK_STREAM, 0, ends), 0);
    IS(nippersage_peek(one, ends[1], bytes, 8), -EAGAIN);
    IS(nippersage_peek(one, ends[1], bytes, 0), 0);
    IS(nippersage_write(one, ends[0], "abcde", 5), 5);
    for (int i = 0; i < 2; i++) {
        memset(bytes, 'x', sizeof bytes);
        IS(nippersage_peek(one, ends[1], bytes, 3), 3);
        IS(memcmp(bytes, "abcxxxxx", 8), 0);
    }
    IS(nippersage_peek(one, ends[1], NULL, 1), -EFAULT);
    IS(nippersage_peek(one, counter, bytes, 8), -ENOTSOCK);
    IS(nippersage_peek(one, 77, bytes, 8), -EBADF);
    IS(nippersage_read(one, ends[1], bytes, 8), 5);
    IS(memcmp(bytes, "abcde", 5), 0);
    IS(nippersage_close(one, ends[0]), 0);
    IS(nippersage_peek(one, ends[1], bytes, 8), 0);
    IS(nippersage_take_error(one, ends[1]), 0);
    IS(nippersage_take_error(one, counter), -ENOTSOCK);
    IS(nippersage_take_error(one, 77), -EBADF);
    IS(nippersage_getsockname(one, ends[1], &name), 0);
    IS(nippersage_getpeername(one, ends[1], &name), 0);
    IS(name.space == 7 && name.number == 7, 1);
    IS(nippersage_getsockname(one, counter, &name), -ENOTSOCK);
    IS(nippersage_getpeername(one, 77, &name), -EBADF);
    IS(nippersage_getsockname(one, ends[1], NULL), -EFAULT);
    IS(nippersage_getpeername(one, ends[1], NULL), -EFAULT);
    IS(nippersage_close(one, ends[1]), 0);
    IS(nippersage_close(one, counter), 0);
}

static struct nippersage_name port(uint32_t number) { return (struct nippersage_name){NIPPERSAGE_V4, number}; }
static struct nippersage_name port_of_v6(uint32_t number) { return (struct nippersage_name){NIPPERSAGE_V6, number}; }
static struct nippersage_name local(uint32_t number) { return (struct nippersage_name){NIPPERSAGE_LOCAL, number}; }

/* The bits that a socket shows. */
static uint32_t shown_at(int fd) {
    struct epoll_event event = {.events = EPOLLIN | EPOLLOUT | EPOLLRDHUP}, found = {.events = 0};
    int ep = nippersage_epoll_create1(one, 0);
    IS(nippersage_epoll_ctl(one, ep, EPOLL_CTL_ADD, fd, &event), 0);
    IS(nippersage_epoll_wait(one, ep, &found, 1, 0), 1);
    IS(nippersage_close(one, ep), 0);
    return found.events;
}

/* A socket has this name. */
static void is_named(int fd, struct nippersage_name wanted) {
    struct nippersage_name name = {7, 7};
    IS(nippersage_getsockname(one, fd, &name), 1);
    IS(name.space, wanted.space);
    IS(name.number, wanted.number);
}

/* What socket(2) makes, and what it takes. */
static void new_sockets(void) {
    struct nippersage_limits few = {4, 4096, 64, 4096, 65536, 65536}, no_files = {1024, 2, 64, 4096, 65536, 65536};
    struct nippersage_task other = {NULL, 1, 1};
    IS(nippersage_socket(one, AF_INET, SOCK_STREAM | SOCK_CLOEXEC | SOCK_NONBLOCK, IPPROTO_TCP), 3);
    IS(nippersage_socket(one, AF_INET6, SOCK_STREAM, IPPROTO_TCP), 4);
    IS(nippersage_socket(one, AF_UNIX, SOCK_STREAM, 0), 5);
    IS(nippersage_socket(one, AF_NETLINK, SOCK_STREAM, 0), -EAFNOSUPPORT);
    IS(nippersage_socket(one, AF_INET, SOCK_DGRAM, 0), -ESOCKTNOSUPPORT);
    IS(nippersage_socket(one, AF_INET6, SOCK_STREAM, IPPROTO_UDP), -EPROTONOSUPPORT);
    IS(nippersage_socket(one, AF_UNIX, SOCK_STREAM, IPPROTO_TCP), -EPROTONOSUPPORT);
    IS(nippersage_socket(other, AF_INET, SOCK_STREAM, 0), -EINVAL);
    IS(nippersage_execve(one), 0);
    IS(nippersage_close(one, 3), -EBADF);
    IS(nippersage_close(one, 4), 0);
    IS(nippersage_close(one, 5), 0);
    IS(nippersage_open(&few, &other.kernel), 0);
    IS(nippersage_socket(other, AF_INET, SOCK_STREAM, 0), 3);
    IS(nippersage_socket(other, AF_UNIX, SOCK_STREAM, 0), -EMFILE);
    nippersage_free(other.kernel);
    IS(nippersage_open(&no_files, &other.kernel), 0);
    IS(nippersage_socket(other, AF_UNIX, SOCK_STREAM, 0), 3);
    IS(nippersage_socket(other, AF_INET, SOCK_STREAM, 0), -ENFILE);
    nippersage_free(other.kernel);
}

/* What a socket answers that has no connection. */
static void without_a_connection(void) {
    struct nippersage_name name = {7, 7};
    char bytes[8];
    IS(nippersage_socket(one, AF_INET, SOCK_STREAM, 0), 3);
    IS(nippersage_socket(one, AF_UNIX, SOCK_STREAM, 0), 4);
    IS(nippersage_read(one, 3, bytes, 8), -ENOTCONN);
    IS(nippersage_peek(one, 3, bytes, 8), -ENOTCONN);
    IS(nippersage_write(one, 3, "a", 1), -EPIPE);
    IS(nippersage_read(one, 4, bytes, 8), -EINVAL);
    IS(nippersage_peek(one, 4, bytes, 8), -EINVAL);
    IS(nippersage_write(one, 4, "a", 1), -ENOTCONN);
    for (int fd = 3; fd <= 4; fd++) {
        IS(nippersage_read(one, fd, bytes, 0), 0);
        IS(nippersage_write(one, fd, bytes, 0), 0);
        IS(nippersage_shutdown(one, fd, SHUT_RDWR), -ENOTCONN);
        IS(nippersage_take_error(one, fd), 0);
        IS(nippersage_getsockname(one, fd, &name), 0);
        IS(nippersage_getpeername(one, fd, &name), -ENOTCONN);
        IS(name.space == 7 && name.number == 7, 1);
        IS(shown_at(fd), EPOLLOUT | EPOLLHUP);
        IS(nippersage_close(one, fd), 0);
    }
}

static void names_given(void) {
    int ends[2];
    IS(nippersage_socket(one, AF_INET, SOCK_STREAM, 0), 3);
    IS(nippersage_socket(one, AF_INET, SOCK_STREAM, 0), 4);
    IS(nippersage_socket(one, AF_UNIX, SOCK_STREAM, 0), 5);
    IS(nippersage_socketpair(one, AF_UNIX, SOCK_STREAM, 0, ends), 0);
    IS(nippersage_bind(one, 3, local(80)), -EAFNOSUPPORT);
    IS(nippersage_bind(one, 3, port(80)), 0);
    is_named(3, port(80));
    IS(nippersage_bind(one, 3, port(81)), -EINVAL);
    IS(nippersage_bind(one, 4, port(80)), -EADDRINUSE);
    IS(nippersage_bind(one, 4, port_of_v6(80)), 0);
    is_named(4, port_of_v6(80));
    IS(nippersage_bind(one, 5, port(0)), -EINVAL);
    IS(nippersage_bind(one, 5, local(0)), 0);
    is_named(5, local(32768));
    IS(nippersage_bind(one, ends[0], local(9)), -EINVAL);
    IS(nippersage_bind(one, 0, port(9)), -ENOTSOCK);
    IS(nippersage_bind(one, 77, port(9)), -EBADF);
    IS(nippersage_close(one, 3), 0);
    IS(nippersage_socket(one, AF_INET6, SOCK_STREAM, 0), 3);
    IS(nippersage_bind(one, 3, port(80)), 0); /* it is free again */
    for (int fd = 3; fd <= 7; fd++) IS(nippersage_close(one, fd), 0);
}

/* What is no name is no event. Those at the ends of their ranges are names. */
static void no_names(void) {
    static const struct nippersage_name none[] = {
        {3, 1}, {-1, 1}, {NIPPERSAGE_V4, 65536}, {NIPPERSAGE_V6, 65536}, {NIPPERSAGE_V4, UINT32_MAX}};
    size_t before = 0, after = 0;
    IS(nippersage_socket(one, AF_INET, SOCK_STREAM, 0), 3);
    IS(nippersage_socket(one, AF_INET, SOCK_STREAM, 0), 4);
    IS(nippersage_socket(one, AF_UNIX, SOCK_STREAM, 0), 5);
    IS(nippersage_records(kernel, &before), 0);
    for (size_t i = 0; i < sizeof none / sizeof *none; i++) {
        IS(nippersage_bind(one, 3, none[i]), -EINVAL);
        IS(nippersage_connect(one, 3, none[i]), -EINVAL);
    }
    IS(nippersage_records(kernel, &after), 0);
    IS(after, before);
    IS(nippersage_bind(one, 3, port(65535)), 0);
    IS(nippersage_bind(one, 4, port_of_v6(65535)), 0);
    IS(nippersage_bind(one, 5, local(UINT32_MAX)), 0);
    is_named(5, local(UINT32_MAX));
    for (int fd = 3; fd <= 5; fd++) IS(nippersage_close(one, fd), 0);
}

/* All names that a connect can take by itself, on a kernel of their own. */
static void no_free_name(void) {
    struct nippersage_limits limits = {65536, 1000000, 64, 4096, 65536, 65536};
    struct nippersage_task task = {NULL, 1, 1};
    IS(nippersage_open(&limits, &task.kernel), 0);
    for (uint32_t number = 32768; number < 61000; number++) {
        int fd = nippersage_socket(task, AF_INET, SOCK_STREAM, 0);
        IS(nippersage_bind(task, fd, port(number)), 0);
    }
    IS(nippersage_socket(task, AF_INET, SOCK_STREAM, 0), 28235);
    IS(nippersage_connect(task, 28235, port(80)), -EADDRNOTAVAIL);
    IS(nippersage_bind(task, 28235, port(0)), -EADDRINUSE);
    IS(nippersage_listen(task, 28235, 5), -EADDRINUSE);
    IS(nippersage_listen(task, 3, 5), 0);
    IS(nippersage_connect(task, 28235, port(32768)), -EADDRNOTAVAIL);
    IS(nippersage_connect(task, 28235, port_of_v6(80)), -EINPROGRESS);
    nippersage_free(task.kernel);
}

/* A connect of TCP that finds nobody, what it leaves, and the ones after it. */
static void failed_connects(void) {
    char bytes[8];
    IS(nippersage_socket(one, AF_INET, SOCK_STREAM, 0), 3);
    IS(nippersage_connect(one, 3, local(80)), -EAFNOSUPPORT);
    IS(nippersage_connect(one, 3, port(80)), -EINPROGRESS);
    is_named(3, port(32768));
    IS(shown_at(3), EPOLLIN | EPOLLOUT | EPOLLERR | EPOLLHUP | EPOLLRDHUP);
    IS(nippersage_take_error(one, 3), ECONNREFUSED);
    IS(ECONNREFUSED, 111);
    IS(nippersage_take_error(one, 3), 0);
    IS(shown_at(3), EPOLLIN | EPOLLOUT | EPOLLHUP | EPOLLRDHUP);
    IS(nippersage_read(one, 3, bytes, 8), 0);
    IS(nippersage_write(one, 3, "a", 1), -EPIPE);
    IS(nippersage_shutdown(one, 3, SHUT_RD), -ENOTCONN);
    IS(nippersage_bind(one, 3, port(9)), -EINVAL);
    IS(nippersage_connect(one, 3, local(1)), -ECONNABORTED);
    IS(shown_at(3), EPOLLOUT | EPOLLHUP);
    IS(nippersage_connect(one, 3, port(80)), -EINPROGRESS);
    IS(nippersage_connect(one, 3, port(80)), -ECONNREFUSED);
    IS(nippersage_connect(one, 3, port(80)), -EINPROGRESS);
    IS(nippersage_read(one, 3, bytes, 0), 0); /* takes no error */
    IS(nippersage_read(one, 3, bytes, 1), -ECONNREFUSED);
    IS(nippersage_read(one, 3, bytes, 1), 0);
    IS(nippersage_connect(one, 3, port(80)), -ECONNABORTED);
    IS(nippersage_connect(one, 3, port_of_v6(80)), -EINPROGRESS);
    IS(nippersage_write(one, 3, "a", 1), -ECONNREFUSED);
    IS(nippersage_write(one, 3, "a", 1), -EPIPE);
    IS(nippersage_take_error(one, 3), 0);
    IS(nippersage_close(one, 3), 0);
}

/* Nobody listens at any name. */
static void connects_of_unix(void) {
    int ends[2];
    IS(nippersage_socket(one, AF_UNIX, SOCK_STREAM, 0), 3);
    IS(nippersage_socketpair(one, AF_UNIX, SOCK_STREAM, 0, ends), 0);
    IS(nippersage_bind(one, 3, local(7)), 0);
    IS(nippersage_connect(one, 3, local(7)), -ECONNREFUSED);
    IS(nippersage_connect(one, 3, local(8)), -ECONNREFUSED);
    IS(nippersage_connect(one, 3, port(7)), -EINVAL);
    IS(nippersage_take_error(one, 3), 0);
    IS(shown_at(3), EPOLLOUT | EPOLLHUP);
    IS(nippersage_connect(one, ends[0], local(7)), -ECONNREFUSED);
    IS(nippersage_connect(one, ends[1], port_of_v6(7)), -EINVAL);
    IS(nippersage_connect(one, 0, local(7)), -ENOTSOCK);
    IS(nippersage_connect(one, 77, local(7)), -EBADF);
    for (int fd = 3; fd <= 5; fd++) IS(nippersage_close(one, fd), 0);
}

/* A file shows no bit. */
static void shows_nothing(int fd) {
    struct epoll_event event = {.events = EPOLLIN | EPOLLOUT | EPOLLPRI | EPOLLRDHUP}, found;
    int ep = nippersage_epoll_create1(one, 0);
    IS(nippersage_epoll_ctl(one, ep, EPOLL_CTL_ADD, fd, &event), 0);
    IS(nippersage_epoll_wait(one, ep, &found, 1, 0), 0);
    IS(nippersage_close(one, ep), 0);
}

/* A new listener of TCP or Unix. */
static int listener(int domain, struct nippersage_name name) {
    int fd = nippersage_socket(one, domain, SOCK_STREAM, 0);
    IS(nippersage_bind(one, fd, name), 0);
    IS(nippersage_listen(one, fd, 5), 0);
    return fd;
}

/* What listens, and at which name. */
static void listens(void) {
    static const int backlogs[] = {0, 1, 4096, 4097, INT_MAX, -1, INT_MIN};
    struct nippersage_task nobody = {NULL, 1, 1}, gone = {kernel, 1, 77};
    int ends[2];
    for (int fd = 3; fd <= 5; fd++) IS(nippersage_socket(one, AF_INET, SOCK_STREAM, 0), fd);
    IS(nippersage_socket(one, AF_UNIX, SOCK_STREAM, 0), 6);
    IS(nippersage_socketpair(one, AF_UNIX, SOCK_STREAM, 0, ends), 0);
    IS(nippersage_bind(one, 3, port(80)), 0);
    IS(nippersage_listen(one, 3, 5), 0);
    is_named(3, port(80));
    for (size_t i = 0; i < sizeof backlogs / sizeof *backlogs; i++) IS(nippersage_listen(one, 3, backlogs[i]), 0);
    is_named(3, port(80));
    IS(nippersage_listen(one, 4, 0), 0);
    is_named(4, port(32768));
    IS(nippersage_bind(one, 5, port_of_v6(0)), 0);
    IS(nippersage_listen(one, 5, -1), 0);
    is_named(5, port_of_v6(32768));
    IS(nippersage_listen(one, 6, 5), -EINVAL);
    IS(shown_at(6), EPOLLOUT | EPOLLHUP);
    IS(nippersage_bind(one, 6, local(0)), 0);
    IS(nippersage_listen(one, 6, 5), 0);
    is_named(6, local(32768));
    for (int fd = 3; fd <= 6; fd++) shows_nothing(fd);
    IS(nippersage_listen(one, ends[0], 5), -EINVAL);
    IS(nippersage_listen(one, 0, 5), -ENOTSOCK);
    IS(nippersage_listen(one, 77, 5), -EBADF);
    IS(nippersage_listen(gone, 3, 5), -ESRCH);
    IS(nippersage_listen(nobody, 3, 5), -EINVAL);
    for (int fd = 3; fd <= 8; fd++) IS(nippersage_close(one, fd), 0);
}

/* A socket whose connect failed listens once a connect has told so, and what waited there still does. */
static void listens_once_told(void) {
    IS(nippersage_socket(one, AF_INET, SOCK_STREAM, 0), 3);
    IS(nippersage_connect(one, 3, port_of_v6(80)), -EINPROGRESS);
    IS(nippersage_listen(one, 3, 5), -EINVAL);
    IS(nippersage_take_error(one, 3), ECONNREFUSED);
    IS(nippersage_listen(one, 3, 5), -EINVAL);
    IS(nippersage_connect(one, 3, port(80)), -ECONNABORTED);
    IS(nippersage_listen(one, 3, 5), 0);
    is_named(3, port_of_v6(32768));
    shows_nothing(3);
    IS(nippersage_close(one, 3), 0);
}

/* What a listener answers: it has a name, and no connection. */
static void of_listeners(void) {
    struct nippersage_name name = {7, 7};
    struct itimerspec second = {.it_value = {1, 0}};
    char bytes[8];
    IS(listener(AF_INET, port(80)), 3);
    IS(listener(AF_UNIX, local(7)), 4);
    IS(nippersage_read(one, 3, bytes, 1), -ENOTCONN);
    IS(nippersage_peek(one, 3, bytes, 1), -ENOTCONN);
    IS(nippersage_write(one, 3, "a", 1), -EPIPE);
    IS(nippersage_read(one, 4, bytes, 1), -EINVAL);
    IS(nippersage_peek(one, 4, bytes, 1), -EINVAL);
    IS(nippersage_write(one, 4, "a", 1), -ENOTCONN);
    for (int fd = 3; fd <= 4; fd++) {
        IS(nippersage_read(one, fd, bytes, 0), 0);
        IS(nippersage_peek(one, fd, bytes, 0), 0);
        IS(nippersage_write(one, fd, bytes, 0), 0);
        for (int how = SHUT_RD; how <= SHUT_RDWR; how++) IS(nippersage_shutdown(one, fd, how), -ENOTCONN);
        IS(nippersage_take_error(one, fd), 0);
        IS(nippersage_getpeername(one, fd, &name), -ENOTCONN);
        IS(name.space == 7 && name.number == 7, 1);
        IS(nippersage_timerfd_settime(one, fd, 0, &second, NULL), -EINVAL);
        IS(nippersage_timerfd_gettime(one, fd, &second), -EINVAL);
        shows_nothing(fd);
    }
    is_named(3, port(80));
    is_named(4, local(7));
    IS(nippersage_bind(one, 3, local(9)), -EAFNOSUPPORT);
    IS(nippersage_bind(one, 3, port(9)), -EINVAL);
    IS(nippersage_bind(one, 4, port(9)), -EINVAL);
    IS(nippersage_bind(one, 4, local(9)), -EINVAL);
    IS(nippersage_connect(one, 3, local(9)), -EISCONN);
    IS(nippersage_connect(one, 3, port(9)), -EISCONN);
    IS(nippersage_connect(one, 3, port(80)), -EISCONN);
    IS(nippersage_connect(one, 4, port(80)), -EINVAL);
    IS(nippersage_connect(one, 4, local(9)), -ECONNREFUSED);
    IS(nippersage_connect(one, 4, local(7)), -EINVAL);
    IS(nippersage_close(one, 3), 0);
    IS(nippersage_close(one, 4), 0);
}

/* The name of a listener is taken until its last descriptor is closed. */
static void names_of_listeners(void) {
    IS(listener(AF_INET, port(80)), 3);
    IS(nippersage_socket(one, AF_INET, SOCK_STREAM, 0), 4);
    IS(nippersage_dup(one, 3), 5);
    IS(nippersage_bind(one, 4, port(80)), -EADDRINUSE);
    IS(nippersage_close(one, 3), 0);
    is_named(5, port(80));
    IS(nippersage_bind(one, 4, port(80)), -EADDRINUSE);
    IS(nippersage_connect(one, 4, port(80)), -EINVAL);
    IS(nippersage_close(one, 5), 0);
    IS(nippersage_bind(one, 4, port(80)), 0);
    IS(nippersage_close(one, 4), 0);
}

/* Nobody gets through to a listener. */
static void connects_to_listeners(void) {
    struct nippersage_name name = {7, 7};
    int ends[2];
    IS(listener(AF_INET, port(80)), 3);
    IS(listener(AF_UNIX, local(7)), 4);
    IS(nippersage_socket(one, AF_INET, SOCK_STREAM, 0), 5);
    IS(nippersage_socket(one, AF_UNIX, SOCK_STREAM, 0), 6);
    IS(nippersage_socketpair(one, AF_UNIX, SOCK_STREAM, 0, ends), 0);
    IS(nippersage_connect(one, 5, local(7)), -EAFNOSUPPORT);
    IS(nippersage_connect(one, 5, port(80)), -EINVAL);
    IS(nippersage_getsockname(one, 5, &name), 0);
    IS(shown_at(5), EPOLLOUT | EPOLLHUP);
    IS(nippersage_connect(one, 5, port(7)), -EINPROGRESS);
    IS(nippersage_connect(one, 5, port(80)), -ECONNREFUSED); /* it tells of the one before */
    IS(nippersage_connect(one, 5, port(80)), -EINVAL);
    IS(nippersage_connect(one, 5, port_of_v6(80)), -EINPROGRESS);
    IS(nippersage_connect(one, 6, port(80)), -EINVAL);
    IS(nippersage_connect(one, 6, local(80)), -ECONNREFUSED);
    IS(nippersage_connect(one, 6, local(7)), -EINVAL);
    IS(nippersage_getsockname(one, 6, &name), 0);
    IS(nippersage_take_error(one, 6), 0);
    IS(shown_at(6), EPOLLOUT | EPOLLHUP);
    IS(nippersage_connect(one, ends[0], port(80)), -EINVAL);
    IS(nippersage_connect(one, ends[0], local(80)), -ECONNREFUSED);
    IS(nippersage_connect(one, ends[0], local(7)), -EISCONN);
    shows_nothing(3);
    shows_nothing(4);
    for (int fd = 3; fd <= 8; fd++) IS(nippersage_close(one, fd), 0);
}

/* Nothing waits at a listener. A flag that is none makes no event. */
static void accepts(void) {
    static const int none[] = {1, O_APPEND, SOCK_CLOEXEC | 1, -1};
    struct nippersage_task nobody = {NULL, 1, 1}, gone = {kernel, 1, 77};
    size_t before = 0, after = 0;
    int ends[2];
    IS(listener(AF_INET, port(80)), 3);
    IS(listener(AF_UNIX, local(7)), 4);
    IS(nippersage_socket(one, AF_INET, SOCK_STREAM, 0), 5);
    IS(nippersage_socketpair(one, AF_UNIX, SOCK_STREAM, 0, ends), 0);
    for (int fd = 3; fd <= 4; fd++) {
        IS(nippersage_accept4(one, fd, 0), -EAGAIN);
        IS(nippersage_accept4(one, fd, SOCK_CLOEXEC | SOCK_NONBLOCK), -EAGAIN);
    }
    IS(nippersage_accept4(one, 5, 0), -EINVAL);
    IS(nippersage_accept4(one, ends[1], 0), -EINVAL);
    IS(nippersage_accept4(one, 0, 0), -ENOTSOCK);
    IS(nippersage_accept4(one, 77, 0), -EBADF);
    IS(nippersage_accept4(gone, 3, 0), -ESRCH);
    IS(nippersage_accept4(nobody, 3, 0), -EINVAL);
    IS(nippersage_records(kernel, &before), 0);
    for (size_t i = 0; i < sizeof none / sizeof *none; i++) IS(nippersage_accept4(one, 3, none[i]), -EINVAL);
    IS(nippersage_records(kernel, &after), 0);
    IS(after, before);
    for (int fd = 3; fd <= 7; fd++) IS(nippersage_close(one, fd), 0);
}

/* A table that is full is told of first, and too many files behind what is no socket. */
static void accepts_no_more(void) {
    struct nippersage_limits few = {4, 4096, 64, 4096, 65536, 65536}, no_files = {1024, 2, 64, 4096, 65536, 65536};
    struct nippersage_task other = {NULL, 1, 1};
    IS(nippersage_open(&few, &other.kernel), 0);
    IS(nippersage_socket(other, AF_INET, SOCK_STREAM, 0), 3);
    IS(nippersage_listen(other, 3, 5), 0);
    IS(nippersage_accept4(other, 3, 0), -EMFILE);
    IS(nippersage_accept4(other, 0, 0), -EMFILE);
    IS(nippersage_accept4(other, 4, 0), -EBADF);
    nippersage_free(other.kernel);
    IS(nippersage_open(&no_files, &other.kernel), 0);
    IS(nippersage_socket(other, AF_INET, SOCK_STREAM, 0), 3);
    IS(nippersage_accept4(other, 3, 0), -ENFILE);
    IS(nippersage_listen(other, 3, 5), 0);
    IS(nippersage_accept4(other, 3, 0), -ENFILE);
    IS(nippersage_accept4(other, 0, 0), -ENOTSOCK);
    nippersage_free(other.kernel);
}

static void listeners(void) {
    listens();
    listens_once_told();
    of_listeners();
    names_of_listeners();
    connects_to_listeners();
    accepts();
    accepts_no_more();
}

static void sockets_without_a_connection(void) {
    new_sockets();
    without_a_connection();
    names_given();
    no_names();
    no_free_name();
    failed_connects();
    connects_of_unix();
}

static void counters(void) {
    uint64_t count = 0;
    int fd = nippersage_eventfd(one, 3, EFD_SEMAPHORE | EFD_CLOEXEC | EFD_NONBLOCK);
    IS(fd, 3);
    IS(nippersage_eventfd(one, 0, 4), -EINVAL);
    IS(nippersage_read(one, fd, &count, 8), 8);
    IS(count, 1);
    IS(nippersage_read(one, fd, &count, 7), -EINVAL);
    IS(nippersage_close(one, fd), 0);
}

static void timers(void) {
    struct itimerspec set = {.it_value = {1, 1}, .it_interval = {0, 2001}}, before, now;
    struct timespec moment = {7, 7};
    int fd = nippersage_timerfd_create(one, CLOCK_MONOTONIC, TFD_CLOEXEC | TFD_NONBLOCK);
    IS(fd, 3);
    IS(nippersage_timerfd_create(one, 9, 0), -EINVAL);
    IS(nippersage_timerfd_create(one, CLOCK_MONOTONIC, 1), -EINVAL);
    IS(nippersage_timerfd_settime(one, fd, 0, &set, &before), 0);
    IS(nanoseconds(before.it_value), 0);
    IS(nanoseconds(before.it_interval), 0);
    IS(nippersage_timerfd_gettime(one, fd, &now), 0);
    IS(now.it_value.tv_sec, 1);
    IS(now.it_value.tv_nsec, 1000); /* one nanosecond, rounded up */
    IS(nanoseconds(now.it_interval), 3000);
    IS(nippersage_next_moment(kernel, &moment), 1);
    IS(moment.tv_sec, 1);
    IS(moment.tv_nsec, 1000);
    set.it_value = (struct timespec){0, 5000};
    IS(nippersage_timerfd_settime(one, fd, TFD_TIMER_ABSTIME, &set, &before), 0);
    IS(nanoseconds(before.it_value), 1000001000);
    IS(nanoseconds(before.it_interval), 3000);
    IS(nippersage_next_moment(kernel, &moment), 1);
    IS(nanoseconds(moment), 5000);
    IS(nippersage_timerfd_settime(one, fd, 2, &set, NULL), -EINVAL);
    IS(nippersage_timerfd_settime(one, fd, 0, NULL, NULL), -EFAULT);
    IS(nippersage_timerfd_gettime(one, fd, NULL), -EFAULT);
    IS(nippersage_timerfd_gettime(one, 0, &now), -EINVAL);
    IS(nippersage_close(one, fd), 0);
    IS(nippersage_next_moment(kernel, &moment), 0);
    IS(nanoseconds(moment), 5000); /* as it was */
    IS(nippersage_next_moment(kernel, NULL), -EFAULT);
    IS(nippersage_next_moment(NULL, &moment), -EINVAL);
}

/* What is no time, and what is more than the clock goes. Of these the third and the fourth are just below 2^63
 * microseconds and just that, and the fifth is above 2^64 of them by less than half a second. */
static const struct timespec no_times[] = {{-1, 0}, {-1, 999999999}, {0, -1}, {0, 1000000000}, {INT64_MIN, 0}};
static const struct timespec too_long[] = {{1000000000, 1},
                                           {1000000001, 0},
                                           {9223372036853, 999999999},
                                           {9223372036854, 775807001},
                                           {18446744073710, 0},
                                           {INT64_MAX, 999999999}};
#define COUNT(list) (sizeof(list) / sizeof *(list))

static struct nippersage_task other_kernel(void) {
    struct nippersage_task task = {NULL, 1, 1};
    IS(nippersage_open(NULL, &task.kernel), 0);
    return task;
}

/* A time that no timer and no tick takes. */
static void refused(struct nippersage_task task, int fd, struct timespec time) {
    struct itimerspec value = {.it_value = time}, interval = {.it_value = {1, 0}, .it_interval = time};
    IS(nippersage_timerfd_settime(task, fd, 0, &value, NULL), -EINVAL);
    IS(nippersage_timerfd_settime(task, fd, 0, &interval, NULL), -EINVAL);
    IS(nippersage_tick(task, &time), -EINVAL);
}

/* Times at the ends of their ranges, on a kernel of their own. */
static void bounds(void) {
    struct nippersage_task task = other_kernel();
    struct timespec moment, last = {1000000000, 0}, least = {0, 1};
    struct itimerspec set = {.it_value = {999999999, 999999001}, .it_interval = last}, now;
    int fd = nippersage_timerfd_create(task, CLOCK_MONOTONIC, 0);
    size_t records = 0;
    for (size_t i = 0; i < COUNT(no_times); i++) refused(task, fd, no_times[i]);
    IS(nippersage_records(task.kernel, &records), 0);
    IS(records, 1); /* what is no time is no event */
    for (size_t i = 0; i < COUNT(too_long); i++) refused(task, fd, too_long[i]);
    IS(nippersage_next_moment(task.kernel, &moment), 0);
    IS(nippersage_timerfd_settime(task, fd, 0, &set, NULL), 0);
    IS(nippersage_timerfd_gettime(task, fd, &now), 0);
    IS(nanoseconds(now.it_value), nanoseconds(last)); /* rounded up */
    IS(nanoseconds(now.it_interval), nanoseconds(last));
    IS(nippersage_tick(task, &last), 0);
    IS(nippersage_now(task.kernel, &moment), 0);
    IS(moment.tv_sec, 1000000000);
    IS(moment.tv_nsec, 0);
    IS(nippersage_tick(task, &least), -EINVAL);
    nippersage_free(task.kernel);
}

/* A timer of one microsecond, and ticks. */
static void microseconds(void) {
    struct itimerspec set = {.it_value = {0, 1000}}, now;
    struct timespec before, moment, tick = {0, 0};
    uint64_t count = 0;
    int fd = nippersage_timerfd_create(one, CLOCK_MONOTONIC, 0);
    IS(nippersage_now(kernel, &before), 0);
    IS(nippersage_timerfd_settime(one, fd, 0, &set, NULL), 0);
    IS(nippersage_tick(one, &tick), 0);
    IS(nippersage_read(one, fd, &count, 8), -EAGAIN);
    IS(nippersage_timerfd_gettime(one, fd, &now), 0);
    IS(nanoseconds(now.it_value), 1000);
    tick.tv_nsec = 1000;
    IS(nippersage_tick(one, &tick), 0);
    IS(nippersage_read(one, fd, &count, 8), 8);
    IS(count, 1);
    tick.tv_nsec = 1;
    IS(nippersage_tick(one, &tick), 0);
    tick.tv_nsec = 1001;
    IS(nippersage_tick(one, &tick), 0);
    IS(nippersage_now(kernel, &moment), 0);
    IS(nanoseconds(moment) - nanoseconds(before), 4000); /* 1, and 1 and 2 by rounding up */
    IS(nippersage_tick(one, NULL), -EFAULT);
    IS(nippersage_now(NULL, &moment), -EINVAL);
    IS(nippersage_now(kernel, NULL), -EFAULT);
    IS(nippersage_close(one, fd), 0);
}

static void numbers(void) {
    int fd = nippersage_plain(one, O_CLOEXEC);
    IS(fd, 3);
    IS(nippersage_plain(one, O_APPEND), -EINVAL);
    IS(nippersage_dup(one, fd), 4);
    IS(nippersage_dup(one, 99), -EBADF);
    IS(nippersage_dup2(one, fd, 9), 9);
    IS(nippersage_dup3(one, fd, 8, 0), 8);
    IS(nippersage_dup3(one, fd, fd, 0), -EINVAL);
    IS(nippersage_dup3(one, fd, 8, O_CLOEXEC), -EOPNOTSUPP);
    IS(nippersage_dup3(one, fd, 8, 1), -EINVAL);
    IS(nippersage_execve(one), 0); /* closes 3, which has close-on-exec; its copies haven't */
    IS(nippersage_close(one, 3), -EBADF);
    IS(nippersage_close(one, 4), 0);
    IS(nippersage_close(one, 8), 0);
    IS(nippersage_close(one, 9), 0);
}

static void processes(void) {
    struct nippersage_task child = {kernel, 3, 0};
    child.pid = (uint64_t)nippersage_fork(one);
    IS(child.pid, 2);
    IS(nippersage_dup(child, 0), 3);
    IS(nippersage_close(one, 3), -EBADF);
    IS(nippersage_exit(child), 0);
    IS(nippersage_dup(child, 0), -ESRCH);
}

/* A wait by hand, from its start to its end. */
static void by_hand(void) {
    struct epoll_event event = {.events = EPOLLIN, .data.u64 = 7}, found[2];
    struct timespec before, moment, twenty = {0, 20000000};
    uint32_t caller = 9;
    int ends[2], ep = nippersage_epoll_create1(one, EPOLL_CLOEXEC);
    IS(ep, 3);
    IS(nippersage_epoll_create1(one, 1), -EINVAL);
    IS(nippersage_pipe2(one, ends, 0), 0);
    IS(nippersage_epoll_ctl(one, ep, EPOLL_CTL_ADD, ends[0], &event), 0);
    IS(nippersage_epoll_ctl(one, ep, EPOLL_CTL_ADD, ends[0], &event), -EEXIST);
    IS(nippersage_epoll_ctl(one, ep, EPOLL_CTL_MOD, ends[1], &event), -ENOENT);
    IS(nippersage_epoll_ctl(one, ep, EPOLL_CTL_ADD, 0, &event), -EPERM);
    IS(nippersage_epoll_ctl(one, ep, EPOLL_CTL_ADD, ends[1], NULL), -EFAULT);
    IS(nippersage_wait_start(one, ep, found, 0, 0), -EINVAL);
    IS(nippersage_wait_start(one, ep, NULL, 2, 0), -EFAULT);
    IS(nippersage_wait_start(one, ep, found, 2, 0), 0);
    IS(nippersage_resume(one, found, 2), -EINVAL);
    IS(nippersage_wait_start(one, ep, found, 2, 20), NIPPERSAGE_PARKED);
    IS(nippersage_is_parked(kernel, 1), 1);
    IS(nippersage_is_marked(kernel, 1), 0);
    IS(nippersage_first_marked(kernel, &caller), 0);
    IS(caller, 9);
    IS(nippersage_close(one, 0), -EBUSY);
    IS(nippersage_resume(one, found, 1), -EMSGSIZE);
    IS(nippersage_resume(one, NULL, 2), -EFAULT);
    IS(nippersage_resume(one, found, 2), NIPPERSAGE_PARKED);
    IS(nippersage_write(two, ends[1], "abc", 3), 3);
    IS(nippersage_is_marked(kernel, 1), 1);
    IS(nippersage_first_marked(kernel, &caller), 1);
    IS(caller, 1);
    IS(nippersage_resume(one, found, 2), 1);
    IS(found[0].events, EPOLLIN);
    IS(found[0].data.u64, 7);
    IS(nippersage_is_parked(kernel, 1), 0);
    IS(nippersage_epoll_ctl(one, ep, EPOLL_CTL_DEL, ends[0], NULL), 0);
    IS(nippersage_now(kernel, &before), 0);
    IS(nippersage_wait_start(one, ep, found, 2, 20), NIPPERSAGE_PARKED);
    IS(nippersage_next_moment(kernel, &moment), 1);
    IS(nanoseconds(moment) - nanoseconds(before), 20000000);
    IS(nippersage_tick(two, &twenty), 0);
    IS(nippersage_now(kernel, &moment), 0);
    IS(nanoseconds(moment) - nanoseconds(before), 20000000);
    IS(nippersage_resume(one, found, 2), 0);
    IS(nippersage_close(one, ep), 0);
    IS(nippersage_close(one, ends[0]), 0);
    IS(nippersage_close(one, ends[1]), 0);
}

/* Begins a wait by hand on a kernel of its own, and answers when it ends, in nanoseconds: -1 for never. It asks for
 * `milliseconds`, and if these are 0, for `time`. */
static long long end_of(int milliseconds, const struct timespec *time) {
    struct nippersage_task task = other_kernel();
    struct epoll_event found;
    struct timespec moment;
    int has_end, ep = nippersage_epoll_create1(task, 0);
    if (milliseconds != 0) {
        IS(nippersage_wait_start(task, ep, &found, 1, milliseconds), NIPPERSAGE_PARKED);
    } else {
        IS(nippersage_pwait2_start(task, ep, &found, 1, time), NIPPERSAGE_PARKED);
    }
    has_end = nippersage_next_moment(task.kernel, &moment);
    nippersage_free(task.kernel);
    return has_end ? nanoseconds(moment) : -1;
}

/* When waits by hand end. */
static void ends(void) {
    struct timespec least = {0, 1}, half = {0, 1500}, last = {1000000000, 0};
    struct timespec minutes = {2200, 0}; /* 36: 2^31 microseconds are less */
    struct timespec days = {3000000, 1000}; /* 34: 2^31 milliseconds are less */
    IS(end_of(1, NULL), 1000000);
    IS(end_of(INT_MAX, NULL), 2147483647000000);
    IS(end_of(-1, NULL), -1);
    IS(end_of(INT_MIN, NULL), -1);
    IS(end_of(0, NULL), -1);
    IS(end_of(0, &least), 1000);
    IS(end_of(0, &half), 2000);
    IS(end_of(0, &minutes), 2200000000000);
    IS(end_of(0, &days), 3000000000001000);
    IS(end_of(0, &last), 1000000000000000000);
}

/* A wait by hand of two microseconds, and what no wait takes. */
static void timeouts(void) {
    struct timespec none = {0, 0}, half = {0, 1500}, step = {0, 1000};
    struct nippersage_task nobody = {NULL, 1, 1};
    struct epoll_event found;
    int ep = nippersage_epoll_create1(one, 0);
    IS(nippersage_pwait2_start(one, ep, &found, 1, &none), 0);
    IS(nippersage_pwait2_start(nobody, ep, &found, 1, NULL), -EINVAL);
    IS(nippersage_pwait2_start(one, ep, &found, 0, NULL), -EINVAL);
    IS(nippersage_pwait2_start(one, ep, NULL, 1, NULL), -EFAULT);
    for (size_t i = 0; i < COUNT(no_times); i++) {
        IS(nippersage_pwait2_start(one, ep, &found, 1, &no_times[i]), -EINVAL);
        IS(nippersage_epoll_pwait2(one, ep, &found, 1, &no_times[i]), -EINVAL);
    }
    IS(nippersage_pwait2_start(one, ep, &found, 1, &half), NIPPERSAGE_PARKED);
    IS(nippersage_tick(two, &step), 0);
    IS(nippersage_resume(one, &found, 1), NIPPERSAGE_PARKED);
    IS(nippersage_tick(two, &step), 0);
    IS(nippersage_resume(one, &found, 1), 0);
    IS(nippersage_close(one, ep), 0);
}

/* A wait that is longer than the clock goes hasn't ended at its last moment. */
static void long_wait(struct timespec time) {
    struct nippersage_task task = other_kernel(), clock = task;
    struct timespec last = {1000000000, 0};
    struct epoll_event found;
    int ep = nippersage_epoll_create1(task, 0);
    clock.caller = 2;
    IS(nippersage_pwait2_start(task, ep, &found, 1, &time), NIPPERSAGE_PARKED);
    IS(nippersage_tick(clock, &last), 0);
    IS(nippersage_is_marked(task.kernel, 1), 0);
    IS(nippersage_resume(task, &found, 1), NIPPERSAGE_PARKED);
    nippersage_free(task.kernel);
}

static void long_waits(void) {
    for (size_t i = 0; i < COUNT(too_long); i++) long_wait(too_long[i]);
}

/* Two callers, each at an instance of its own with an exclusive registration of one counter: a write wakes one. */
static void exclusive(void) {
    struct epoll_event event = {.events = EPOLLIN | EPOLLEXCLUSIVE, .data.u64 = 7}, found[2];
    struct nippersage_task writer = {kernel, 3, 1};
    int counter = nippersage_eventfd(one, 0, 0);
    int first = nippersage_epoll_create1(one, 0), second = nippersage_epoll_create1(one, 0);
    IS(nippersage_epoll_ctl(one, first, EPOLL_CTL_ADD, counter, &event), 0);
    IS(nippersage_epoll_ctl(one, second, EPOLL_CTL_ADD, counter, &event), 0);
    IS(nippersage_epoll_ctl(one, second, EPOLL_CTL_ADD, counter, &event), -EEXIST);
    IS(nippersage_epoll_ctl(one, second, EPOLL_CTL_ADD, first, &event), -EINVAL);
    IS(nippersage_epoll_ctl(one, second, EPOLL_CTL_MOD, counter, &event), -EINVAL);
    event.events = EPOLLIN;
    IS(nippersage_epoll_ctl(one, second, EPOLL_CTL_MOD, counter, &event), -EINVAL);
    event.events = EPOLLIN | EPOLLEXCLUSIVE | EPOLLONESHOT;
    IS(nippersage_epoll_ctl(one, second, EPOLL_CTL_ADD, counter, &event), -EINVAL);
    IS(nippersage_wait_start(one, first, found, 2, -1), NIPPERSAGE_PARKED);
    IS(nippersage_wait_start(two, second, found, 2, -1), NIPPERSAGE_PARKED);
    IS(nippersage_write(writer, counter, "\1\0\0\0\0\0\0", 8), 8);
    IS(nippersage_is_marked(kernel, 1), 1);
    IS(nippersage_is_marked(kernel, 2), 0);
    IS(nippersage_resume(two, found, 2), NIPPERSAGE_PARKED);
    IS(nippersage_resume(one, found, 2), 1);
    IS(found[0].events, EPOLLIN);
    IS(nippersage_write(writer, counter, "\1\0\0\0\0\0\0", 8), 8);
    IS(nippersage_resume(two, found, 2), 1);
    IS(nippersage_close(one, counter), 0);
    IS(nippersage_close(one, first), 0);
    IS(nippersage_close(one, second), 0);
}

/* So many are parked, and this one for the longest time. */
static void is_first_waiter(struct nippersage_waiter wanted, int count) {
    struct nippersage_waiter found = {0};
    IS(nippersage_waiters(kernel, NULL, 0), count);
    IS(nippersage_waiters(kernel, &found, 1), count);
    IS(found.caller, wanted.caller);
    IS(found.pid, wanted.pid);
    IS(found.epfd, wanted.epfd);
    IS(found.maxevents, wanted.maxevents);
    IS(found.has_timeout, wanted.has_timeout);
    IS(nanoseconds(found.timeout), nanoseconds(wanted.timeout));
}

/* Ends the wait of a caller without end, which has room for 4,096 reports. */
static void leave_by_report(struct nippersage_task task, int ep) {
    static struct epoll_event found[4096];
    struct epoll_event event = {.events = EPOLLIN};
    int counter = nippersage_eventfd(one, 1, 0);
    IS(nippersage_epoll_ctl(one, ep, EPOLL_CTL_ADD, counter, &event), 0);
    IS(nippersage_resume(task, found, 4096), 1);
    IS(nippersage_close(one, counter), 0);
}

/* Who waits at what, the one that was parked first before the others, also if one between them has gone. */
static void waiters(void) {
    struct epoll_event found[4];
    struct timespec nanosecond = {0, 1};
    struct nippersage_waiter all[3];
    struct nippersage_task three = {kernel, 3, 1};
    int ep = nippersage_epoll_create1(one, 0);
    IS(nippersage_wait_start(one, ep, found, 2, 250), NIPPERSAGE_PARKED);
    IS(nippersage_pwait2_start(two, ep, found, 4, &nanosecond), NIPPERSAGE_PARKED);
    IS(nippersage_wait_start(three, ep, found, 5000, -1), NIPPERSAGE_PARKED);
    is_first_waiter((struct nippersage_waiter){1, 1, ep, 2, 1, {0, 250000000}}, 3);
    IS(nippersage_tick((struct nippersage_task){kernel, 4, 1}, &(struct timespec){0, 1000}), 0);
    IS(nippersage_resume(two, found, 4), 0);
    IS(nippersage_waiters(kernel, all, 3), 2);
    IS(all[0].caller, 1);
    IS(all[1].caller, 3);
    IS(all[1].maxevents, 4096);
    IS(all[1].has_timeout, 0);
    IS(nippersage_tick((struct nippersage_task){kernel, 4, 1}, &(struct timespec){0, 249999000}), 0);
    IS(nippersage_resume(one, found, 2), 0);
    is_first_waiter((struct nippersage_waiter){3, 1, ep, 4096, 0, {0, 0}}, 1);
    leave_by_report(three, ep);
    IS(nippersage_waiters(kernel, all, -1), -EINVAL);
    IS(nippersage_waiters(kernel, NULL, 1), -EFAULT);
    IS(nippersage_waiters(NULL, all, 1), -EINVAL);
}

static void is_watch(struct nippersage_watch found, struct nippersage_watch wanted) {
    IS(found.fd, wanted.fd);
    IS(found.events, wanted.events);
    IS(found.data, wanted.data);
    IS(found.shown, wanted.shown);
    IS(found.is_armed, wanted.is_armed);
    IS(found.is_reportable, wanted.is_reportable);
    IS(found.reported_in, wanted.reported_in);
    IS(found.reported_to, wanted.reported_to);
}

/* What an instance watches, by hand from docs/calls.md: a counter that can be read and was reported to caller 2, and one
   that is reported once, at most. The number of the counter is closed while another one names it. */
static void watches(void) {
    struct epoll_event level = {.events = EPOLLIN, .data.u64 = 7}, once = {.events = EPOLLIN | EPOLLONESHOT}, found[4];
    struct nippersage_watch all[3] = {{0}};
    struct nippersage_watch first = {.events = EPOLLIN, .data = 7, .is_armed = 1, .is_reportable = 1, .reported_to = 2},
                            second = {.events = once.events, .shown = EPOLLIN | EPOLLOUT};
    size_t records;
    int ep = nippersage_epoll_create1(one, 0), counter, copy;
    first.fd = counter = nippersage_eventfd(one, 1, 0);
    second.fd = nippersage_eventfd(one, 1, 0);
    IS(nippersage_epoll_ctl(one, ep, EPOLL_CTL_ADD, counter, &level), 0);
    IS(nippersage_epoll_ctl(one, ep, EPOLL_CTL_ADD, second.fd, &once), 0);
    IS(nippersage_wait_start(two, ep, found, 4, 0), 2);
    IS(nippersage_records(kernel, &records), 0);
    first.shown = EPOLLIN | EPOLLOUT;
    first.reported_in = second.reported_in = records;
    second.reported_to = 2;
    IS(nippersage_watches(one, ep, all, 3), 2);
    is_watch(all[0], first);
    is_watch(all[1], second);
    is_watch(all[2], (struct nippersage_watch){0});
    copy = nippersage_dup(one, counter);
    IS(nippersage_close(one, counter), 0);
    IS(nippersage_epoll_ctl(one, ep, EPOLL_CTL_MOD, second.fd, &once), 0);
    all[1].fd = -7;
    IS(nippersage_watches(one, ep, all, 1), 2);
    is_watch(all[0], first);
    IS(all[1].fd, -7);
    IS(nippersage_watches(one, ep, NULL, 0), 2);
    IS(nippersage_watches(one, second.fd, all, 3), -EINVAL);
    IS(nippersage_watches(one, 1000, all, 3), -EBADF);
    IS(nippersage_watches((struct nippersage_task){kernel, 1, 77}, ep, all, 3), -EBADF);
    IS(nippersage_watches(one, ep, all, -1), -EINVAL);
    IS(nippersage_watches(one, ep, NULL, 1), -EFAULT);
    IS(nippersage_watches((struct nippersage_task){NULL, 1, 1}, ep, all, 3), -EINVAL);
    IS(nippersage_close(one, copy), 0);
    IS(nippersage_watches(one, ep, all, 3), 1);
    IS(all[0].is_armed, 1);
    IS(nippersage_close(one, second.fd), 0);
    IS(nippersage_close(one, ep), 0);
}

/* The same of an instance that has no number any more, while a caller is parked there. */
static void watches_awaited(void) {
    struct epoll_event event = {.events = EPOLLIN, .data.u64 = UINT64_MAX}, found;
    struct nippersage_watch all[2];
    int ep = nippersage_epoll_create1(one, 0), ends[2];
    IS(nippersage_pipe2(one, ends, 0), 0);
    IS(nippersage_epoll_ctl(one, ep, EPOLL_CTL_ADD, ends[0], &event), 0);
    IS(nippersage_watches_awaited(kernel, 2, all, 2), -EINVAL);
    IS(nippersage_wait_start(two, ep, &found, 1, 1), NIPPERSAGE_PARKED);
    IS(nippersage_close(one, ep), 0);
    IS(nippersage_watches_awaited(kernel, 2, all, 2), 1);
    is_watch(all[0], (struct nippersage_watch){ends[0], EPOLLIN, UINT64_MAX, 0, 1, 0, 0, 0});
    IS(nippersage_watches_awaited(kernel, 1, all, 2), -EINVAL);
    IS(nippersage_watches_awaited(NULL, 2, all, 2), -EINVAL);
    IS(nippersage_tick(one, &(struct timespec){0, 1000000}), 0);
    IS(nippersage_resume(two, &found, 1), 0);
    IS(nippersage_close(one, ends[0]), 0);
    IS(nippersage_close(one, ends[1]), 0);
}

/* Waits that move the clock by themselves. */
static void by_itself(void) {
    struct epoll_event event = {.events = EPOLLIN, .data.u64 = 9}, found;
    struct itimerspec hour = {.it_value = {3600, 0}};
    struct timespec most = {0, 1}, before, moment;
    uint64_t count = 0;
    int ep = nippersage_epoll_create1(one, 0), fd = nippersage_timerfd_create(one, CLOCK_REALTIME, 0);
    IS(nippersage_now(kernel, &before), 0);
    IS(nippersage_epoll_ctl(one, ep, EPOLL_CTL_ADD, fd, &event), 0);
    IS(nippersage_timerfd_settime(one, fd, 0, &hour, NULL), 0);
    IS(nippersage_epoll_wait(one, ep, &found, 1, -1), 1);
    IS(found.events, EPOLLIN);
    IS(found.data.u64, 9);
    IS(nippersage_now(kernel, &moment), 0);
    IS(nanoseconds(moment) - nanoseconds(before), 3600000000000);
    IS(nippersage_read(one, fd, &count, 8), 8);
    IS(count, 1);
    IS(nippersage_epoll_wait(one, ep, &found, 1, 0), 0);
    IS(nippersage_epoll_wait(one, ep, &found, 1, 250), 0);
    IS(nippersage_epoll_pwait2(one, ep, &found, 1, &most), 0);
    IS(nippersage_now(kernel, &moment), 0);
    IS(nanoseconds(moment) - nanoseconds(before), 3600250001000);
    IS(nippersage_deadlock(kernel, NULL, 0), 0);
    IS(nippersage_epoll_pwait2(one, ep, &found, 1, NULL), -EDEADLK);
    IS(nippersage_is_parked(kernel, 1), 0);
    IS(nippersage_waiters(kernel, NULL, 0), 0);
    IS(nippersage_timerfd_settime(one, fd, 0, &hour, NULL), 0);
    IS(nippersage_tick(one, &hour.it_value), 0);
    IS(nippersage_epoll_wait(one, ep, &found, 1, -1), 1);
    IS(found.data.u64, 9);
    IS(nippersage_epoll_wait(one, fd, &found, 1, 0), -EINVAL);
    IS(nippersage_tasks(kernel, 2), 0);
    IS(nippersage_tasks(kernel, -3), -EINVAL);
    IS(nippersage_tasks(kernel, -2), 0);
    IS(nippersage_tasks(NULL, 0), -EINVAL);
}

/* No report is lost where there are more than one asks for. */
static void many(void) {
    struct nippersage_limits limits = {64, 64, 4, 2, 4096, 4096};
    struct nippersage_kernel *small;
    struct nippersage_task task = {NULL, 1, 1};
    struct epoll_event event = {.events = EPOLLOUT}, found[64];
    int ep;
    IS(nippersage_open(&limits, &small), 0);
    task.kernel = small;
    ep = nippersage_epoll_create1(task, 0);
    for (int i = 0; i < 2; i++) {
        IS(nippersage_epoll_ctl(task, ep, EPOLL_CTL_ADD, nippersage_eventfd(task, 0, 0), &event), 0);
    }
    IS(nippersage_epoll_ctl(task, ep, EPOLL_CTL_ADD, nippersage_eventfd(task, 0, 0), &event), -ENOSPC);
    IS(nippersage_epoll_wait(task, ep, found, 64, -1), 2); /* 64 is above the limit of registrations */
    IS(nippersage_epoll_wait(task, ep, found, 1, -1), 1);
    nippersage_free(small);
}

static void history(void) {
    static const char first[] = "{\"answer\":{\"two\":[3,4]},\"caller\":1,\"event\":{\"call\":{\"cloexec\":true,\"op\":\"pipe\"},"
                                "\"pid\":1},\"picked\":[]}\n";
    char line[512];
    FILE *file = tmpfile();
    size_t count = 0, records = 0;
    IS(file != NULL, 1);
    IS(nippersage_records(kernel, &records), 0);
    IS(nippersage_records(NULL, &records), -EINVAL);
    IS(nippersage_records(kernel, NULL), -EFAULT);
    IS(nippersage_reserve(kernel, 100), 0);
    IS(nippersage_reserve(kernel, SIZE_MAX), -ENOMEM);
    IS(nippersage_check(kernel), 0);
    IS(nippersage_history(kernel, fileno(file)), 0);
    IS(nippersage_history(kernel, -1), -EBADF);
    rewind(file);
    while (fgets(line, sizeof line, file)) {
        if (count == 0) IS(strcmp(line, first), 0);
        count++;
    }
    IS(count > 50, 1);
    IS(count, records);
    fclose(file);
}

/* So many calls, each of which is refused. */
static void ask_often(struct nippersage_kernel *of, int times) {
    for (int i = 0; i < times; i++) IS(nippersage_close((struct nippersage_task){of, 0, 1}, 99), -EBADF);
}

/* Whether two files have the same bytes. */
static int are_same(FILE *one, FILE *other) {
    int byte;
    rewind(one);
    rewind(other);
    do byte = getc(one);
    while (byte == getc(other) && byte != EOF);
    return byte == EOF && feof(other);
}

/* A history that goes out as it comes is that of a kernel which keeps it. */
static void streams(void) {
    struct nippersage_kernel *streamed, *kept;
    FILE *first = tmpfile(), *second = tmpfile();
    size_t count = 0;
    IS(first && second, 1);
    IS(nippersage_open(NULL, &streamed), 0);
    IS(nippersage_open(NULL, &kept), 0);
    IS(nippersage_stream(NULL, 1), -EINVAL);
    IS(nippersage_stream(streamed, -1), 0);
    ask_often(streamed, 3);
    IS(nippersage_stream(streamed, fileno(first)), 0);
    ask_often(streamed, 10000);
    ask_often(kept, 10003);
    IS(nippersage_records(streamed, &count), 0);
    IS(count < 5000, 1);
    IS(nippersage_check(streamed), -EINVAL);
    IS(nippersage_stream(streamed, -1), 0);
    IS(nippersage_records(streamed, &count), 0);
    IS(count, 0);
    ask_often(streamed, 2);
    IS(nippersage_records(streamed, &count), 0);
    IS(count, 2);
    IS(nippersage_history(kept, fileno(second)), 0);
    IS(are_same(first, second), 1);
    nippersage_free(streamed);
    nippersage_free(kept);
    fclose(first);
    fclose(second);
}

/* How many lines a file has. */
static int lines_of(FILE *file) {
    int lines = 0, byte;
    rewind(file);
    while ((byte = getc(file)) != EOF) lines += byte == '\n';
    return lines;
}

/* What can't be written stays, and is told once. What is left goes out when the kernel is freed. */
static void streams_that_fail(void) {
    struct nippersage_kernel *of;
    FILE *file = tmpfile();
    int closed = open("/dev/null", O_RDONLY);
    size_t count = 0;
    IS(nippersage_open(NULL, &of), 0);
    IS(nippersage_stream(of, closed), 0);
    ask_often(of, 9000);
    IS(nippersage_records(of, &count), 0);
    IS(count, 9000);
    IS(nippersage_check(of), 0);
    IS(nippersage_stream(of, fileno(file)), -EBADF);
    ask_often(of, 1);
    nippersage_free(of);
    IS(lines_of(file), 9001);
    fclose(file);
    close(closed);
}

/* Records that go nowhere are forgotten as they come, and their events are counted all the same. */
static void forgets(void) {
    struct nippersage_kernel *of;
    FILE *file = tmpfile();
    uint64_t events = 77;
    size_t count = 0;
    IS(nippersage_open(NULL, &of), 0);
    IS(nippersage_events(NULL, &events), -EINVAL);
    IS(nippersage_events(of, NULL), -EFAULT);
    IS(nippersage_events(of, &events), 0);
    IS(events, 0);
    IS(nippersage_stream(of, NIPPERSAGE_FORGET), 0);
    IS(nippersage_check(of), 0);
    ask_often(of, 10000);
    IS(nippersage_records(of, &count), 0);
    IS(count < 5000, 1);
    IS(nippersage_check(of), -EINVAL);
    IS(nippersage_events(of, &events), 0);
    IS(events, 10000);
    IS(nippersage_stream(of, fileno(file)), 0);
    IS(nippersage_records(of, &count), 0);
    IS(count, 0);
    ask_often(of, 5000);
    IS(nippersage_stream(of, NIPPERSAGE_FORGET), 0);
    ask_often(of, 7);
    IS(nippersage_stream(of, -1), 0);
    ask_often(of, 2);
    IS(nippersage_records(of, &count), 0);
    IS(count, 2);
    IS(nippersage_events(of, &events), 0);
    IS(events, 15009);
    nippersage_free(of);
    IS(lines_of(file), 5000);
    fclose(file);
}

/* Bytes and reports count for how much is there at a time. */
static void forgets_bytes(void) {
    static char bytes[4096];
    struct epoll_event event = {.events = EPOLLIN}, found[64];
    struct nippersage_kernel *of;
    int ends[2], ep;
    size_t count = 0, most = 0;
    IS(nippersage_open(NULL, &of), 0);
    struct nippersage_task task = {of, 1, 1};
    IS(nippersage_pipe2(task, ends, 0), 0);
    IS(nippersage_stream(of, NIPPERSAGE_FORGET), 0);
    for (int i = 0; i < 100; i++) {
        IS(nippersage_write(task, ends[1], bytes, sizeof bytes), sizeof bytes);
        IS(nippersage_read(task, ends[0], bytes, sizeof bytes), sizeof bytes);
        IS(nippersage_records(of, &count), 0);
        if (count > most) most = count;
    }
    IS(most > 40 && most < 50, 1);
    ep = nippersage_epoll_create1(task, 0);
    for (int i = 0; i < 64; i++) IS(nippersage_epoll_ctl(task, ep, EPOLL_CTL_ADD, nippersage_eventfd(task, 1, 0), &event), 0);
    for (int i = 0; i < 1000; i++) IS(nippersage_epoll_wait(task, ep, found, 64, 0), 64);
    IS(nippersage_records(of, &count), 0);
    IS(count < 500, 1);
    nippersage_free(of);
}

int main(int argc, char **argv) {
    version();
    opening();
    pipes();
    vectors();
    sockets();
    sockets_without_a_connection();
    listeners();
    counters();
    timers();
    bounds();
    microseconds();
    numbers();
    processes();
    by_hand();
    ends();
    timeouts();
    long_waits();
    exclusive();
    waiters();
    watches();
    watches_awaited();
    by_itself();
    many();
    history();
    streams();
    streams_that_fail();
    forgets();
    forgets_bytes();
    if (argc > 1) {
        int fd = open(argv[1], O_CREAT | O_TRUNC | O_WRONLY, 0600);
        IS(nippersage_history(kernel, fd), 0);
        close(fd);
    }
    nippersage_free(kernel);
    return 0;
}
