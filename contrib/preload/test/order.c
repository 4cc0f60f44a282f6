/* Bytes of several children that have all come before the program looks: they are moved in the order of the children,
   and of the numbers of each, whenever they were written. Simulated only; order.out is what the log has of it. */
#include "child.h"
#include "trace.h"

#include <sys/mman.h>
#include <unistd.h>

enum { CHILDREN = 3 };

static volatile int *turn; /* memory that all share */

static void await_turn(int wanted) {
    while (*turn != wanted) continue;
}

/* The last child is the first one to write, and each writes to the second of its pipes first. */
static pid_t write_in_turn(int child, const int outs[2]) {
    static const char *const words[CHILDREN][2] = {{"a of 0", "b of 0"}, {"a of 1", "b of 1"}, {"a of 2", "b of 2"}};
    pid_t pid = fork();
    if (pid != 0) return pid;
    alarm(600); /* its parent may fail */
    await_turn(CHILDREN - 1 - child);
    write(outs[1], words[child][1], 6);
    write(outs[0], words[child][0], 6);
    ++*turn;
    await_turn(-1);
    _exit(0);
}

int main(void) {
    int ends[CHILDREN][2][2], failed = 0;
    pid_t children[CHILDREN];
    char bytes[8];
    turn = mmap(NULL, sizeof *turn, PROT_READ | PROT_WRITE, MAP_SHARED | MAP_ANONYMOUS, -1, 0);
    *turn = CHILDREN; /* nobody's, until all are there */
    for (int i = 0; i < CHILDREN; i++) {
        int outs[2];
        for (int k = 0; k < 2; k++) {
            failed += pipe(ends[i][k]) != 0;
            outs[k] = ends[i][k][1];
        }
        children[i] = write_in_turn(i, outs);
        close(outs[0]), close(outs[1]);
    }
    *turn = 0;
    await_turn(CHILDREN); /* by no call: nothing is moved meanwhile */
    for (int i = CHILDREN - 1; i >= 0; i--)
        for (int k = 1; k >= 0; k--) failed += read(ends[i][k][0], bytes, sizeof bytes) != 6;
    *turn = -1;
    for (int i = 0; i < CHILDREN; i++) failed += end_of(children[i]) != 0;
    return failed;
}
