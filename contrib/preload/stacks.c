/* A stack of the shim's own for each thread that needs one. A call takes some 10 KB of stack, for the simulated
   kernel runs within it. Threads of PTHREAD_STACK_MIN, coroutines and handlers on alternate stacks may have less than
   that. So build puts a stub before each function that the program sees: it goes on at once if the caller's stack has
   ROOM, as that of an ordinary thread, and else calls the function on the thread's own stack.

   The real kernel runs a handler that breaks into such a call on that stack, too, or on the program's alternate one.
   The program's part of it runs where it would run on Linux: below the frame of the call, or on the alternate stack.
   The calls of that part begin below what is used of the shim's stack. */
#include "preload.h"

#include <dlfcn.h>
#include <pthread.h>
#include <stdlib.h>
#include <sys/mman.h>
#include <sys/resource.h>
#include <ucontext.h>
#if __has_include(<valgrind/memcheck.h>)
#include <valgrind/memcheck.h>
#else
#define RUNNING_ON_VALGRIND 0
#define VALGRIND_MAKE_MEM_UNDEFINED(begin, size) (void)(begin)
#endif

FORWARD(getrlimit)
FORWARD(sigaltstack)

#define DISARMS (1U << 31) /* SS_AUTODISARM, which the C library doesn't name */
enum { ROOM = 64 << 10, SIZE = 256 << 10, GUARD = 4096, APART = 4 << 20, RED_ZONE = 128, FRAMES = 1024, PUSHED = 64 };

/* At the bottom of a stub's frame: the call that is being made on the thread's own stack. */
struct switched {
    uintptr_t top; /* where it began */
    struct switched *outer;
};

/* The stubs know the first three. A handler that breaks in may find any state of it but a wrong one. */
_Thread_local struct stacks {
    uintptr_t low, room;       /* a stack pointer that is less than `room` above `low` has enough below it */
    struct switched *switched; /* the innermost call that is made on the own stack */
    uintptr_t top;             /* where the next one begins */
    uintptr_t bottom, high;    /* of the own stack; 0 before there is one */
    uintptr_t learned;         /* what `room` is but on an alternate stack */
    stack_t alternate;         /* what the program has set */
    bool has_alternate;
} stacks;
_Static_assert(offsetof(struct stacks, room) == 8 && offsetof(struct stacks, switched) == 16, "the stubs count on it");

/* ---- the own stack ---- */

static pthread_mutex_t lock = PTHREAD_MUTEX_INITIALIZER;
static uintptr_t spare; /* the bottom of one that a thread has left; the next one is named at its top */
static pthread_key_t key;
static pthread_once_t once = PTHREAD_ONCE_INIT;

void lock_stacks(void) { pthread_mutex_lock(&lock); }

void unlock_stacks(void) { pthread_mutex_unlock(&lock); }

static uintptr_t *next_of_spare(uintptr_t bottom) { return (uintptr_t *)(bottom + SIZE - sizeof(uintptr_t)); }

static void give_back(void *bottom) {
    QUIET_WITHIN;
    stacks.bottom = stacks.high = 0;
    stacks.switched = NULL;
    pthread_mutex_lock(&lock);
    *next_of_spare((uintptr_t)bottom) = spare;
    spare = (uintptr_t)bottom;
    pthread_mutex_unlock(&lock);
}

static void make_key(void) {
    if (pthread_key_create(&key, give_back) != 0) abort();
}

/* Valgrind takes a stack pointer that moves by less than 2 MB for one that stays on its stack: so there the own stack
   is that far from all others. */
static uintptr_t map_stack(void) {
    size_t apart = RUNNING_ON_VALGRIND ? APART : 0;
    char *made = mmap(NULL, 2 * apart + SIZE, PROT_NONE, MAP_PRIVATE | MAP_ANONYMOUS | MAP_NORESERVE, -1, 0);
    if (made == MAP_FAILED) return 0;
    if (mprotect(made + apart + GUARD, SIZE - GUARD, PROT_READ | PROT_WRITE) == 0) return (uintptr_t)made + apart;
    munmap(made, 2 * apart + SIZE);
    return 0;
}

static bool make_own_stack(void) {
    QUIET_WITHIN;
    uintptr_t bottom;
    int saved = errno;
    pthread_once(&once, make_key);
    pthread_mutex_lock(&lock);
    bottom = spare;
    if (bottom) spare = *next_of_spare(bottom);
    pthread_mutex_unlock(&lock);
    if (!bottom) bottom = map_stack();
    errno = saved;
    if (!bottom) return false;
    stacks.bottom = bottom;
    stacks.top = stacks.high = bottom + SIZE;
    pthread_setspecific(key, (void *)bottom);
    return true;
}

static bool is_begun; /* before that a sanitizer may call, which isn't ready yet, on the first thread's stack */

static bool is_on_own(uintptr_t address) { return address - stacks.bottom < stacks.high - stacks.bottom; }

/* What is pushed right after a change of stacks valgrind wouldn't take for a part of it. */
static void tell_valgrind(uintptr_t top) { VALGRIND_MAKE_MEM_UNDEFINED((void *)(top - PUSHED), PUSHED); }

/* For a stub: where its call is to begin, or 0 if it may go on where it is. */
uintptr_t begin_on_own(struct switched *frame) {
    if (!is_begun || is_on_own((uintptr_t)frame)) return 0;
    if (stacks.high == 0 && !make_own_stack()) return 0;
    frame->top = stacks.top;
    frame->outer = stacks.switched;
    atomic_signal_fence(memory_order_seq_cst);
    stacks.switched = frame;
    tell_valgrind(stacks.top);
    return stacks.top;
}

/* ---- what a thread's stack has ---- */

/* All that lies at least ROOM above its lowest address. */
static void set_bounds(uintptr_t low, uintptr_t high) {
    stacks.low = low + ROOM;
    stacks.room = stacks.learned = high > stacks.low ? high - stacks.low : 0;
}

void learn_first_stack(void) {
    struct rlimit limit = {0, 0};
    uintptr_t here = (uintptr_t)__builtin_frame_address(0), most = (uintptr_t)1 << 30;
    is_begun = true;
    if (next_getrlimit()(RLIMIT_STACK, &limit) != 0) return;
    if (limit.rlim_cur < most) most = limit.rlim_cur;
    /* Above this frame there are those of the program's start, its arguments and its environment. */
    if (most > 2 * ROOM) set_bounds(here - most + ROOM, UINTPTR_MAX / 2);
}

/* What the C library itself takes of a new thread's stack, as for what is local to a thread, at most. */
static size_t taken_of_stack(const pthread_attr_t *attributes) {
    size_t (*least_stack)(const pthread_attr_t *) = (size_t (*)(const pthread_attr_t *))(uintptr_t)dlsym(
        RTLD_DEFAULT, "__pthread_get_minstack");
    return least_stack ? least_stack(attributes) : SIZE_MAX;
}

/* pthread_getattr_np would tell the thread itself where its stack is, but it calls the program's allocator, which has
   something to make ready for each thread that calls it. */
size_t stack_of(const pthread_attr_t *given) {
    pthread_attr_t by_default;
    const pthread_attr_t *attributes = given ? given : &by_default;
    size_t size = 0, guard = 0, taken;
    if (!given && pthread_getattr_default_np(&by_default) != 0) return 0;
    taken = taken_of_stack(attributes);
    pthread_attr_getstacksize(attributes, &size);
    pthread_attr_getguardsize(attributes, &guard);
    if (!given) pthread_attr_destroy(&by_default);
    return taken == SIZE_MAX || size < taken || size - taken < guard ? 0 : size - taken - guard;
}

void learn_stack(size_t size) {
    uintptr_t here = (uintptr_t)__builtin_frame_address(0);
    if (size > 0) set_bounds(here - size, here);
}

/* ---- handlers ---- */

static bool is_on(const stack_t *stack, uintptr_t address) {
    return !(stack->ss_flags & SS_DISABLE) && address - (uintptr_t)stack->ss_sp < stack->ss_size;
}

/* An alternate stack may lie within the thread's. One that wasn't disarmed, as a sanitizer's, is used from its top by
   the next handler, if that breaks into a call that is made elsewhere: so none is, if the stack is large enough. */
static uintptr_t room_on(const stack_t *alternate) {
    return (unsigned int)alternate->ss_flags & DISARMS || alternate->ss_size < ROOM / 4 ? 0 : UINTPTR_MAX;
}

struct place begin_handler_stack(const void *context) {
    const ucontext_t *interrupted = context;
    uintptr_t here = (uintptr_t)__builtin_frame_address(0);
    uintptr_t there = (uintptr_t)interrupted->uc_mcontext.gregs[REG_RSP], top = stacks.top;
    struct place before = {stacks.top, stacks.room};
    if (is_on_own(there) && there - RED_ZONE < top) top = there - RED_ZONE;
    if (is_on_own(here) && here - FRAMES < top) top = here - FRAMES;
    stacks.top = top & ~(uintptr_t)63;
    if (is_on(&interrupted->uc_stack, here)) {
        stacks.room = room_on(&interrupted->uc_stack);
    } else if ((unsigned int)interrupted->uc_stack.ss_flags & DISARMS) {
        /* It is disarmed for every handler. One that runs elsewhere leaves it to those that break into it. */
        next_sigaltstack()(&interrupted->uc_stack, NULL);
    }
    return before;
}

/* The handler may have been the first to need a stack. */
void end_handler_stack(struct place before) {
    stacks.top = before.top ? before.top : stacks.high;
    stacks.room = before.room;
}

void call_handler(void (*handler)(int, siginfo_t *, void *), int signal, siginfo_t *info, void *context) {
    uintptr_t below = (uintptr_t)stacks.switched & ~(uintptr_t)15;
    if (is_on_own((uintptr_t)__builtin_frame_address(0)) && stacks.switched) {
        tell_valgrind(below);
        call_on(below, handler, signal, info, context);
    } else {
        handler(signal, info, context);
    }
}

/* ---- jumps ---- */

uintptr_t place_of_call(const void *frame) {
    return is_on_own((uintptr_t)frame) && stacks.switched ? (uintptr_t)stacks.switched : (uintptr_t)frame;
}

static bool is_on_alternate(uintptr_t address) { return stacks.has_alternate && is_on(&stacks.alternate, address); }

bool is_left(uintptr_t place, uintptr_t target) {
    if (is_on_alternate(target)) return is_on_alternate(place) && place < target;
    return is_on_alternate(place) || place < target;
}

void leave_stacks_below(uintptr_t target) {
    bool was_on_alternate = is_on_alternate(place_of_call(__builtin_frame_address(0)));
    stack_t again = stacks.alternate;
    while (stacks.switched && is_left((uintptr_t)stacks.switched, target)) {
        stacks.top = stacks.switched->top;
        stacks.switched = stacks.switched->outer;
    }
    if (!was_on_alternate || is_on_alternate(target)) return;
    stacks.room = stacks.learned;
    again.ss_flags = (int)((unsigned int)again.ss_flags | DISARMS);
    next_sigaltstack()(&again, NULL);
}

/* ---- alternate stacks ---- */

/* Valgrind's kernel has no such flag. */
static int set_alternate(const stack_t *given) {
    stack_t asked = *given;
    if (!(asked.ss_flags & SS_DISABLE)) asked.ss_flags = (int)((unsigned int)asked.ss_flags | DISARMS);
    if (next_sigaltstack()(&asked, NULL) == 0) return 0;
    return errno == EINVAL ? next_sigaltstack()(given, NULL) : -1;
}

/* The real kernel disarms an alternate stack while a handler runs there: so a call of the handler may be made on the
   own stack, and a further handler begins below it. What the program is told is as if it weren't so. */
int sigaltstack(const stack_t *restrict given, stack_t *restrict before) {
    bool is_used = is_on_alternate(place_of_call(__builtin_frame_address(0)));
    stack_t was = stacks.has_alternate ? stacks.alternate : (stack_t){.ss_flags = SS_DISABLE};
    QUIET_WITHIN;
    if (!READABLE_OR_NULL(given) || !WRITABLE_OR_NULL(before)) return (int)plain_answer(-EFAULT);
    if (given && is_used) return (int)plain_answer(-EPERM);
    if (given) {
        if (set_alternate(given) != 0) return -1;
        stacks.alternate = *given;
        stacks.alternate.ss_flags &= ~SS_ONSTACK;
        stacks.has_alternate = !(given->ss_flags & SS_DISABLE);
    }
    if (is_used) was.ss_flags |= SS_ONSTACK;
    if (before) *before = was;
    return 0;
}

/* ---- the stubs ---- */

/* on_own has the function in r11, and its arguments where the function is to find them, the seventh one on the stack.
   Its frame has, from rbp down, a struct switched, and for the time of begin_on_own the arguments. */
__asm__(".text\n"
        ".globl on_own, call_apart, call_on\n"
        ".hidden on_own, call_apart, call_on, begin_on_own, stacks\n"
        ".p2align 4\n"
        ".type on_own, @function\n"
        "on_own:\n"
        "    .cfi_startproc\n"
        "    pushq %rbp\n"
        "    .cfi_def_cfa_offset 16\n"
        "    .cfi_offset %rbp, -16\n"
        "    movq %rsp, %rbp\n"
        "    .cfi_def_cfa_register %rbp\n"
        "    subq $16, %rsp\n"
        "    pushq %rdi\n"
        "    pushq %rsi\n"
        "    pushq %rdx\n"
        "    pushq %rcx\n"
        "    pushq %r8\n"
        "    pushq %r9\n"
        "    pushq %rax\n"
        "    pushq %r11\n"
        "    leaq -16(%rbp), %rdi\n"
        "    call begin_on_own\n"
        "    movq %rax, %r10\n"
        "    popq %r11\n"
        "    popq %rax\n"
        "    popq %r9\n"
        "    popq %r8\n"
        "    popq %rcx\n"
        "    popq %rdx\n"
        "    popq %rsi\n"
        "    popq %rdi\n"
        "    testq %r10, %r10\n"
        "    jz 1f\n"
        "    movq %r10, %rsp\n"
        "    pushq 24(%rbp)\n"
        "    pushq 16(%rbp)\n"
        "    call *%r11\n"
        "    movq stacks@gottpoff(%rip), %r11\n"
        "    movq -8(%rbp), %r10\n"
        "    movq %r10, %fs:16(%r11)\n"
        "    movq %rbp, %rsp\n"
        "    popq %rbp\n"
        "    .cfi_remember_state\n"
        "    .cfi_def_cfa %rsp, 8\n"
        "    ret\n"
        "1:\n"
        "    .cfi_restore_state\n"
        "    movq %rbp, %rsp\n"
        "    popq %rbp\n"
        "    .cfi_def_cfa %rsp, 8\n"
        "    jmp *%r11\n"
        "    .cfi_endproc\n"
        ".size on_own, . - on_own\n"
        /* call_apart(function, a, b) */
        ".p2align 4\n"
        ".type call_apart, @function\n"
        "call_apart:\n"
        "    .cfi_startproc\n"
        "    movq %rdi, %r11\n"
        "    movq %rsi, %rdi\n"
        "    movq %rdx, %rsi\n"
        "    movq stacks@gottpoff(%rip), %rax\n"
        "    movq %rsp, %r10\n"
        "    subq %fs:(%rax), %r10\n"
        "    cmpq %fs:8(%rax), %r10\n"
        "    jae on_own\n"
        "    jmp *%r11\n"
        "    .cfi_endproc\n"
        ".size call_apart, . - call_apart\n"
        /* call_on(stack pointer, function, a, b, c) */
        ".p2align 4\n"
        ".type call_on, @function\n"
        "call_on:\n"
        "    .cfi_startproc\n"
        "    pushq %rbp\n"
        "    .cfi_def_cfa_offset 16\n"
        "    .cfi_offset %rbp, -16\n"
        "    movq %rsp, %rbp\n"
        "    .cfi_def_cfa_register %rbp\n"
        "    movq %rdi, %rsp\n"
        "    movq %rsi, %r11\n"
        "    movl %edx, %edi\n"
        "    movq %rcx, %rsi\n"
        "    movq %r8, %rdx\n"
        "    call *%r11\n"
        "    movq %rbp, %rsp\n"
        "    popq %rbp\n"
        "    .cfi_def_cfa %rsp, 8\n"
        "    ret\n"
        "    .cfi_endproc\n"
        ".size call_on, . - call_on\n");
