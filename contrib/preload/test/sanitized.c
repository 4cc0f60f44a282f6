/* A program that is compiled with AddressSanitizer. With a word it reads more than it has room for. */
#include "trace.h"

#include <stdlib.h>
#include <unistd.h>

static void *read_line(void *end) {
    char *line = malloc(10);
    if (read(*(int *)end, line, 10) != 10) abort();
    return line;
}

int main(int count, char **words) {
    int ends[2];
    pthread_t thread;
    void *line;
    (void)words;
    trace("pipe: %ld", outcome(pipe(ends)));
    pthread_create(&thread, NULL, read_line, &ends[0]);
    usleep(100000);
    trace("write: %ld", outcome(write(ends[1], "0123456789abcdef", 16)));
    pthread_join(thread, &line);
    trace("read: %.10s", (char *)line);
    if (count > 1) trace("too much: %ld", outcome(read(ends[0], (char *)line + 8, 6)));
    free(line);
    return 0;
}
