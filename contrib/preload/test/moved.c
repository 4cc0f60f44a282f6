/* A program that goes to another folder and forgets its environment. Its history and its log are to be found where it
   began. */
#include <stdio.h>
#include <stdlib.h>
#include <unistd.h>

int main(int count, char **words) {
    int ends[2];
    if (count != 2 || chdir(words[1]) != 0 || clearenv() != 0 || pipe(ends) != 0) return 1;
    return write(ends[1], "moved", 5) == 5 ? 0 : 1;
}
