/* Programs that never end: full WAY. Each fills the history, by calls, by waits, or by looks at the clock. */
#include <stdio.h>
#include <stdlib.h>
#include <sys/epoll.h>
#include <sys/eventfd.h>
#include <time.h>

static void by_calls(void) {
    int counter = eventfd(0, EFD_NONBLOCK);
    for (;;) eventfd_write(counter, 1);
}

static void by_waits(void) {
    struct epoll_event found;
    int instance = epoll_create1(0);
    for (;;) epoll_wait(instance, &found, 1, 10);
}

static void by_looks(void) {
    for (;;) time(NULL);
}

int main(int count, char **words) {
    static void (*const ways[])(void) = {by_calls, by_waits, by_looks};
    printf("printed before\n");
    ways[count > 1 ? atoi(words[1]) : 0]();
    return 0;
}
