/* Pointers that a program gives to a call. The real kernel answers EFAULT for one that leads nowhere, and so do the
   doubles: they touch each page that a call is to read or to write before it does anything. A touch of what isn't
   there is a fault; signals.c has its signal for all of the program's life, sees where it came from, and lets the
   touch answer that it failed. So a good pointer costs some instructions, and no call of the real kernel. */
#include "preload.h"

#include <ucontext.h>

/* Each page from the byte at `first` to that at `last` is touched: by reading a byte, or by a write that leaves the
   byte as it is, whatever other threads do to it meanwhile. */
__asm__(".text\n"
        ".p2align 4\n"
        ".globl touch_to_read, touch_to_write, begin_of_touches, end_of_touches, end_of_bad_touch\n"
        ".hidden touch_to_read, touch_to_write, begin_of_touches, end_of_touches, end_of_bad_touch\n"
        ".type touch_to_read, @function\n"
        ".type touch_to_write, @function\n"
        "begin_of_touches:\n"
        "touch_to_read:\n"
        "    movzbl (%rdi), %eax\n"
        "    orq $4095, %rdi\n"
        "    incq %rdi\n"
        "    cmpq %rdi, %rsi\n"
        "    jae touch_to_read\n"
        "    movl $1, %eax\n"
        "    ret\n"
        ".p2align 4\n"
        "touch_to_write:\n"
        "    lock orb $0, (%rdi)\n"
        "    orq $4095, %rdi\n"
        "    incq %rdi\n"
        "    cmpq %rdi, %rsi\n"
        "    jae touch_to_write\n"
        "    movl $1, %eax\n"
        "    ret\n"
        "end_of_touches:\n"
        "end_of_bad_touch:\n"
        "    xorl %eax, %eax\n"
        "    ret\n"
        ".size touch_to_read, . - touch_to_read\n");

extern const char begin_of_touches[], end_of_touches[], end_of_bad_touch[];

/* A page at a time: what lies behind the end of a text needn't be there. */
bool can_read_text(const char *text) {
    enum { PAGE = 4096 };
    for (;;) {
        size_t left = PAGE - ((uintptr_t)text & (PAGE - 1));
        if (!can_read(text, 1)) return false;
        if (memchr(text, '\0', left)) return true;
        text += left;
    }
}

bool can_read_list(char *const texts[]) {
    for (; texts; texts++) {
        if (!READABLE(texts)) return false;
        if (!*texts) break;
        if (!can_read_text(*texts)) return false;
    }
    return true;
}

bool end_bad_touch(void *context) {
    greg_t *at = &((ucontext_t *)context)->uc_mcontext.gregs[REG_RIP];
    if (*at < (greg_t)(uintptr_t)begin_of_touches || *at >= (greg_t)(uintptr_t)end_of_touches) return false;
    *at = (greg_t)(uintptr_t)end_of_bad_touch;
    return true;
}
