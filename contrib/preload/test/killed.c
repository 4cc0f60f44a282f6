/* A signal ends the program: that of an alarm, SIGPIPE, one from outside in a wait of two threads, or a fault.
   Simulated only: check looks for its history. */
#include <poll.h>
#include <pthread.h>
#include <signal.h>
#include <stdio.h>
#include <string.h>
#include <unistd.h>

static int ends[2];

static void *kill_late(void *signal) {
    usleep(1000);
    kill(getpid(), *(int *)signal);
    pause();
    return NULL;
}

static int wait_for(int signal) {
    struct sigaction action = {.sa_handler = SIG_DFL}; /* it may be ignored from before */
    pthread_t thread;
    char byte;
    sigaction(signal, &action, NULL);
    pthread_create(&thread, NULL, kill_late, &signal);
    return read(ends[0], &byte, 1) >= 0 ? 2 : 5;
}

int main(int count, char **words) {
    if (count < 2 || pipe(ends) != 0) return 1;
    signal(SIGPIPE, SIG_DFL);
    if (strcmp(words[1], "hup") == 0) return wait_for(SIGHUP);
    if (strcmp(words[1], "int") == 0) return wait_for(SIGINT);
    if (strcmp(words[1], "term") == 0) return wait_for(SIGTERM);
    if (strcmp(words[1], "fault") == 0) *(volatile char *)8 = 1;
    if (strcmp(words[1], "alarm") == 0) {
        alarm(5);
        if (read(ends[0], ends, 1) >= 0) return 2;
    }
    close(ends[0]);
    if (write(ends[1], "x", 1) >= 0) return 3;
    return 4;
}
