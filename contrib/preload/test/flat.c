/* The memory of a long run: flat WAY. What follows the first calls takes no more memory than they took, whether the
   history is written or not. If each record were kept, a million of them would take 48 MB, and those of bytes 300 MB.
   Simulated only. */
#include <fcntl.h>
#include <stdio.h>
#include <string.h>
#include <sys/epoll.h>
#include <sys/eventfd.h>
#include <unistd.h>

enum { MOST = 4096 };

static int counter, instance, ends[2];

/* So many KB have been there at once. */
static long peak(void) {
    char line[256];
    long found = -1;
    FILE *file = fopen("/proc/self/status", "r");
    while (file && fgets(line, sizeof line, file) && found < 0)
        if (sscanf(line, "VmHWM: %ld", &found) != 1) found = -1;
    if (file) fclose(file);
    return found;
}

static void call(void) {
    eventfd_t found;
    eventfd_write(counter, 1);
    eventfd_read(counter, &found);
}

static void wait_a_little(void) {
    struct epoll_event found;
    epoll_wait(instance, &found, 1, 1);
}

/* No run of one byte, which would be kept as one. */
static void move_bytes(void) {
    static char bytes[16384];
    for (size_t i = 0; i < sizeof bytes; i++) bytes[i] = (char)(i % 251);
    if (write(ends[1], bytes, sizeof bytes) != sizeof bytes) return;
    if (read(ends[0], bytes, sizeof bytes) < 0) return;
}

static const struct way {
    const char *name;
    void (*make)(void);
    int first, then;
} ways[] = {
    {"calls", call, 10000, 500000},
    {"waits", wait_a_little, 10000, 300000},
    {"bytes", move_bytes, 1000, 10000},
};

int main(int count, char **words) {
    const struct way *way = ways;
    long before, grown;
    while (count > 1 && strcmp(way->name, words[1]) != 0)
        if (++way == ways + sizeof ways / sizeof *ways) return 2;
    counter = eventfd(0, 0);
    instance = epoll_create1(0);
    if (pipe(ends) != 0) return 2;
    for (int i = 0; i < way->first; i++) way->make();
    before = peak();
    for (int i = 0; i < way->then; i++) way->make();
    grown = peak() - before;
    printf("grows by %ld KB\n", grown);
    return before > 0 && grown < MOST ? 0 : 1;
}
