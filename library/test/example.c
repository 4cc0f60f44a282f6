/* The first example: caller 1 waits, and is woken. */
#include <assert.h>
#include <nippersage.h>
#include <stdio.h>

int main(void) {
    struct nippersage_kernel *kernel;
    struct epoll_event event = {.events = EPOLLIN, .data.u64 = 7}, found[8];
    int ends[2], instance;
    assert(nippersage_open(NULL, &kernel) == 0);
    struct nippersage_task test = {kernel, 0, 1}, thread = {kernel, 1, 1}; /* two callers in process 1 */
    assert(nippersage_pipe2(test, ends, 0) == 0);
    instance = nippersage_epoll_create1(test, 0);
    assert(nippersage_epoll_ctl(test, instance, EPOLL_CTL_ADD, ends[0], &event) == 0);
    assert(nippersage_wait_start(thread, instance, found, 8, -1) == NIPPERSAGE_PARKED); /* caller 1 waits */
    assert(nippersage_write(test, ends[1], "abc", 3) == 3);
    assert(nippersage_resume(thread, found, 8) == 1 && found[0].data.u64 == 7); /* and has been woken */
    assert(nippersage_history(kernel, 1) == 0);
    nippersage_free(kernel);
    return 0;
}
