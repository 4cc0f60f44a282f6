/* A wait that only a real signal from outside can end. Simulated only: check sends some, or none. With the word `pause`
   one ends a pause before. With `alarm` there is an alarm, past the last moment of the clock, which never comes. */
#include "trace.h"

#include <limits.h>
#include <signal.h>
#include <string.h>
#include <sys/epoll.h>
#include <unistd.h>

static volatile sig_atomic_t came;

static void note(int signal) {
    (void)signal;
    came++;
}

int main(int count, char **words) {
    struct sigaction action = {.sa_handler = note};
    struct epoll_event event;
    const char *way = count > 1 ? words[1] : "";
    sigaction(SIGUSR1, &action, NULL);
    printf("ready\n");
    fflush(stdout);
    if (strcmp(way, "pause") == 0) pause();
    if (strcmp(way, "alarm") == 0) alarm(UINT_MAX);
    long result = outcome(epoll_wait(epoll_create1(0), &event, 1, -1));
    printf("%ld, %d came\n", result, (int)came);
    return 0;
}
