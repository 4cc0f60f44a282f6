/* A child whose answers come one by one, each in one piece: two runs of it have the same history. */
#include "trace.h"

#include <string.h>
#include <sys/wait.h>
#include <unistd.h>

int main(void) {
    int in[2], out[2], status = 0;
    char bytes[64];
    pid_t child;
    pipe(in);
    pipe(out);
    child = fork();
    if (child == 0) {
        dup2(in[0], 0);
        dup2(out[1], 1);
        close_range(3, ~0U, 0);
        execlp("cat", "cat", NULL);
        _exit(127);
    }
    close(in[0]);
    close(out[1]);
    for (int i = 0; i < 3; i++) {
        ssize_t got;
        snprintf(bytes, sizeof bytes, "question %d", i);
        write(in[1], bytes, strlen(bytes));
        got = read(out[0], bytes, sizeof bytes);
        printf("%.*s\n", got > 0 ? (int)got : 0, bytes);
    }
    close(in[1]);
    printf("end: %zd\n", read(out[0], bytes, sizeof bytes));
    waitpid(child, &status, 0);
    printf("status: %d\n", status);
    return 0;
}
