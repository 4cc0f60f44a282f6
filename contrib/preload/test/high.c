/* Runs a program with descriptor 600 open: high PROGRAM.. */
#include <fcntl.h>
#include <stdio.h>
#include <unistd.h>

int main(int count, char **words) {
    if (count < 2 || fcntl(0, F_DUPFD, 600) != 600) return 3;
    execv(words[1], words + 1);
    perror(words[1]);
    return 3;
}
