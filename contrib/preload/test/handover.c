/* A program that ends before its child has read what it wrote: the child reads it all the same, also what lies in a
   stream until then. */
#include <stdio.h>
#include <stdlib.h>
#include <string.h>
#include <unistd.h>

int main(int count, char **words) {
    enum { ALL = 60000, IN_STREAM = 100 };
    char *bytes = malloc(ALL);
    FILE *stream;
    int ends[2];
    if (count != 2 || !bytes || pipe(ends) != 0) return 1;
    if (fork() == 0) {
        dup2(ends[0], 0);
        close_range(3, ~0U, 0);
        execlp("sh", "sh", "-c", "sleep 0.2; wc -c >\"$1.new\"; mv \"$1.new\" \"$1\"", "sh", words[1], NULL);
        _exit(127);
    }
    memset(bytes, 'x', ALL);
    if (write(ends[1], bytes, ALL - IN_STREAM) != ALL - IN_STREAM) return 1;
    stream = fdopen(ends[1], "w");
    return stream && fwrite(bytes, 1, IN_STREAM, stream) == IN_STREAM ? 0 : 1;
}
