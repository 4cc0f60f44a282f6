/* An allocator of the program's own, which reads the clock, writes to a pipe of the program's and makes a call by its
   number in each call: the first one comes before main. */
#include "trace.h"

#include <fcntl.h>
#include <stdatomic.h>
#include <stdbool.h>
#include <stddef.h>
#include <stdint.h>
#include <string.h>
#include <sys/epoll.h>
#include <sys/eventfd.h>
#include <unistd.h>

enum { ROOM = 64 << 20 };

static _Alignas(16) char room[ROOM];
static atomic_size_t used;
static atomic_int looks;
static struct timespec first_look;
static int ends[2];
static volatile bool writes; /* a compiler takes it that no allocator reads it */

/* What an allocator does that notes when it was called. */
static void look(void) {
    static _Thread_local bool is_looking;
    struct timespec now;
    if (is_looking) return;
    is_looking = true;
    clock_gettime(CLOCK_MONOTONIC, &now);
    if (atomic_fetch_add(&looks, 1) == 0) first_look = now;
    if (writes && write(ends[1], "a", 1) != 1) writes = false;
    is_looking = false;
}

void *malloc(size_t size) {
    size_t whole = (size + 31) & ~(size_t)15, at = atomic_fetch_add(&used, whole);
    look();
    if (at + whole > ROOM) return NULL;
    memcpy(room + at, &size, sizeof size);
    return room + at + 16;
}

/* Not inlined, so that valgrind can stand in for it. */
__attribute__((noinline)) void free(void *block) {
    (void)block;
    look();
}

void *calloc(size_t count, size_t size) {
    void *made = malloc(count * size);
    if (made) memset(made, 0, count * size);
    return made;
}

void *realloc(void *block, size_t size) {
    size_t before = 0;
    void *made = malloc(size);
    if (!made || !block) return made;
    memcpy(&before, (char *)block - 16, sizeof before);
    memcpy(made, block, before < size ? before : size);
    return made;
}

/* Before main, and before the kernel is there. */
__attribute__((constructor)) static void allocate_early(void) {
    static void *volatile kept;
    kept = malloc(100);
    free(kept);
}

static void *run(void *argument) {
    for (int i = 0; i < 1000; i++) {
        void *volatile block = malloc(100);
        free(block);
        eventfd_write(*(int *)argument, 1);
    }
    return NULL;
}

static void threads(void) {
    int counter = eventfd(0, 0);
    pthread_t made[4];
    eventfd_t value = 0;
    for (int i = 0; i < 4; i++) pthread_create(&made[i], NULL, run, &counter);
    for (int i = 0; i < 4; i++) pthread_join(made[i], NULL);
    eventfd_read(counter, &value);
    trace("count: %d", (int)value);
    close(counter);
}

/* Calls of the kernel that take much memory: registrations, bytes in pipes. */
static void calls(void) {
    struct epoll_event event = {.events = EPOLLIN}, found[4];
    int instance = epoll_create1(0), wrong = 0;
    for (int i = 0; i < 200; i++) {
        int counter = eventfd(0, EFD_NONBLOCK);
        wrong += epoll_ctl(instance, EPOLL_CTL_ADD, counter, &event) != 0;
        wrong += eventfd_write(counter, 1) != 0;
    }
    trace("registered, wrong: %d", wrong);
    trace("found: %d", epoll_wait(instance, found, 4, -1));
    close(instance);
}

static void allocate_and_write(void) {
    char bytes[16];
    void *volatile block;
    writes = true;
    block = malloc(100);
    free(block);
    writes = false;
    trace("written by the allocator: %ld", outcome(read(ends[0], bytes, sizeof bytes)));
}

int main(void) {
    struct timespec now;
    clock_gettime(CLOCK_MONOTONIC, &now);
    setvbuf(stdout, NULL, _IOLBF, BUFSIZ);
    trace("looks before main: %d", atomic_load(&looks) > 0);
    trace("the first one was at the start: %d", now.tv_sec - first_look.tv_sec <= 1);
    trace("pipe: %d", pipe2(ends, O_NONBLOCK));
    calls();
    allocate_and_write();
    threads();
    sleep(2);
    trace("slept");
    return 0;
}
