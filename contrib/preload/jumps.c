/* Handlers that jump out of a wait, as one of SIGALRM does to end a read. The wait leaves the kernel before. */
#include "preload.h"

#include <setjmp.h>

FORWARD(longjmp)
FORWARD(_longjmp)
FORWARD(siglongjmp)

/* The stack pointer that a jump goes to. The C library on x86-64 keeps it rotated, and mixed with a secret. */
static uintptr_t target_of(const struct __jmp_buf_tag *buffer) {
    enum { STACK_POINTER = 6, ROTATED = 17 };
    uintptr_t kept = (uintptr_t)buffer->__jmpbuf[STACK_POINTER], secret;
    __asm__("mov %%fs:0x30, %0" : "=r"(secret));
    return (kept >> ROTATED | kept << (64 - ROTATED)) ^ secret;
}

static void leave_below(uintptr_t target) {
    leave_waits_below(target);
    leave_timed_below(target);
    leave_stacks_below(target);
}

void longjmp(struct __jmp_buf_tag buffer[1], int value) {
    leave_below(target_of(buffer));
    next_longjmp()(buffer, value);
}

void _longjmp(struct __jmp_buf_tag buffer[1], int value) {
    leave_below(target_of(buffer));
    next__longjmp()(buffer, value);
}

void siglongjmp(struct __jmp_buf_tag buffer[1], int value) {
    leave_below(target_of(buffer));
    next_siglongjmp()(buffer, value);
}

/* What the C library makes of them in a program that was compiled with _FORTIFY_SOURCE. Its own would look whether the
   jump goes up on the stack that this is called on, which may be the shim's. */
_Noreturn void __longjmp_chk(struct __jmp_buf_tag buffer[1], int value);
_Noreturn void __longjmp_chk(struct __jmp_buf_tag buffer[1], int value) { longjmp(buffer, value); }
