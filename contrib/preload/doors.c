/* Other doors to the real kernel. What the shim refuses by name can be called past it: by an instruction of the
 * program's own, or by a library that RTLD_DEEPBIND binds to the C library. A filter of the real kernel (seccomp) stops
 * what comes so. It judges by the number, the arguments and the address from which the call is made:
 * - real_call, which is the shim itself, may call anything.
 * - Calls of the program and its libraries are stopped. The real kernel sends SIGSYS, and the handler here answers as
 *   the shim's function of that name does, with its line. But the C library's posix_spawn has all signals blocked while
 *   it makes a process, so that SIGSYS would end the program: there clone and clone3 are ENOSYS, without a line. After
 *   that answer of clone3 it makes its threads by clone, which may make them.
 * - The C library's fork is one instruction. The shim forks by it, and the handler makes that call, as it does in a
 *   child; to others it is ENOSYS.
 * - A child has the filter, too, at the same addresses. There the handler makes what is asked for, but for what would
 *   do harm.
 * - Everybody else is left alone. A filter stays over fork and exec, so this is for a program that a child runs: it has
 *   another layout (personality(2), ADDR_COMPAT_LAYOUT), by which its libraries lie outside of what is judged here. But
 *   one that has calls of its own at the addresses of this program is stopped.
 * - The machine's clocks are closed to all of them.
 *
 * A handler that is blocked can't answer, so no mask of the program's has SIGSYS in the real kernel: masks.c. A mask
 * that is set by number is stopped, too, but for those of the C library's functions. */
#include "preload.h"

#include <elf.h>
#include <link.h>
#include <linux/audit.h>
#include <linux/filter.h>
#include <linux/rtc.h>
#include <linux/seccomp.h>
#include <linux/sockios.h>
#include <sched.h>
#include <stdlib.h>
#include <sys/personality.h>
#include <sys/prctl.h>
#include <sys/resource.h>
#include <sys/socket.h>
#include <sys/syscall.h>
#include <ucontext.h>
#if __has_include(<valgrind/valgrind.h>)
#include <valgrind/valgrind.h>
#else
#define RUNNING_ON_VALGRIND 0
#endif

FORWARD(_Fork)
FORWARD(getrlimit)
FORWARD(syscall)

/* ---- the shim's own calls ---- */

/* behind_call is the address that the real kernel sees. */
extern const char behind_call[];
__asm__(".text\n"
        ".hidden real_call, behind_call\n"
        ".globl real_call, behind_call\n"
        ".type real_call, @function\n"
        "real_call:\n"
        "    mov %rdi, %rax\n"
        "    mov %rsi, %rdi\n"
        "    mov %rdx, %rsi\n"
        "    mov %rcx, %rdx\n"
        "    mov %r8, %r10\n"
        "    mov %r9, %r8\n"
        "    mov 8(%rsp), %r9\n"
        "    syscall\n"
        "behind_call:\n"
        "    ret\n"
        ".size real_call, . - real_call\n");

/* ---- making a filter ---- */

/* What SIGSYS tells of this filter, and of no filter of the program's; and what it tells of all of them. */
enum { MARK = 0x4e53, BY_FILTER = 1 };

/* Where it goes on: at a place, or after so many instructions more. */
enum target { MASK, KILL, IOCTL, FCNTL, CLONE, FORK, UNSHARE, PAIR, TIMER, LIMIT, LIMIT_OF, NEW_LIMIT, FOREIGN, FOREIGN_IOCTL,
              DOOR, PROCESS, CLOCK, CALLER, INSIDE, ALLOW, ABSENT, PLACES };
#define SKIP(count) (PLACES + (count))
#define NEXT SKIP(0)

enum { MOST_CODE = 255 };
struct filter {
    struct sock_filter code[MOST_CODE];
    int then[MOST_CODE], otherwise[MOST_CODE]; /* of jumps */
    int count, at[PLACES];
};

static void put(struct filter *filter, int code, uint32_t value, int then, int otherwise) {
    if (filter->count == MOST_CODE) abort();
    filter->code[filter->count] = (struct sock_filter){.code = (uint16_t)code, .k = value};
    filter->then[filter->count] = then;
    filter->otherwise[filter->count++] = otherwise;
}

static void load(struct filter *filter, size_t offset) {
    put(filter, BPF_LD | BPF_W | BPF_ABS, (uint32_t)offset, NEXT, NEXT);
}

#define LOAD(name) load(filter, offsetof(struct seccomp_data, name))

/* The lower half of an argument, which is all that the real kernel looks at if it takes an int. */
static void load_argument(struct filter *filter, size_t number) {
    load(filter, offsetof(struct seccomp_data, args) + sizeof(uint64_t) * number);
}

static void if_equal(struct filter *filter, uint32_t value, int then, int otherwise) {
    put(filter, BPF_JMP | BPF_JEQ | BPF_K, value, then, otherwise);
}

static void if_least(struct filter *filter, uint32_t value, int then, int otherwise) {
    put(filter, BPF_JMP | BPF_JGE | BPF_K, value, then, otherwise);
}

static void if_above(struct filter *filter, uint32_t value, int then, int otherwise) {
    put(filter, BPF_JMP | BPF_JGT | BPF_K, value, then, otherwise);
}

static void if_has(struct filter *filter, uint32_t bits, int then, int otherwise) {
    put(filter, BPF_JMP | BPF_JSET | BPF_K, bits, then, otherwise);
}

static void end_with(struct filter *filter, uint32_t value) { put(filter, BPF_RET | BPF_K, value, NEXT, NEXT); }

static void begin_place(struct filter *filter, enum target place) { filter->at[place] = filter->count; }

static uint8_t distance(const struct filter *filter, int from, int to) {
    int count = to >= NEXT ? to - NEXT : filter->at[to] - from - 1;
    if (count < 0 || count > UINT8_MAX) abort();
    return (uint8_t)count;
}

/* All jumps lead forward. */
static void join_places(struct filter *filter) {
    for (int i = 0; i < filter->count; i++) {
        if (BPF_CLASS(filter->code[i].code) != BPF_JMP) continue;
        filter->code[i].jt = distance(filter, i, filter->then[i]);
        filter->code[i].jf = distance(filter, i, filter->otherwise[i]);
    }
}

/* ---- forks of the C library ---- */

/* All of its forks are made by one instruction, which is the first one of _Fork that makes a call; clone has the number
   56. From glibc 2.41 on there is another call before it: all signals are blocked then, and no handler could answer. */
static bool asks_by_signal;

/* Behind that instruction, or 0. */
static uint64_t fork_place(void) {
    static const unsigned char by_clone[] = {0xb8, SYS_clone, 0, 0, 0, 0x0f, 0x05};
    enum { CALLS = sizeof by_clone - 2, MOST = 512 };
    const unsigned char *code = (const unsigned char *)(uintptr_t)next__Fork();
    const unsigned char *end = memmem(code, MOST, by_clone, sizeof by_clone);
    if (!end || RUNNING_ON_VALGRIND) return 0;
    end += sizeof by_clone;
    asks_by_signal = !memmem(code, (size_t)(end - code) - 2, by_clone + CALLS, 2) &&
                     !memchr(code, 0xe8, (size_t)(end - code) - 2);
    return (uint64_t)(uintptr_t)end;
}

static bool has_filter;

bool can_fork(void) { return !has_filter || RUNNING_ON_VALGRIND || fork_place() != 0; }

/* ---- which calls ---- */

static const struct {
    int number;
    enum target place;
} judged[] = {
    {SYS_rt_sigprocmask, MASK},
    {SYS_ioctl, IOCTL},
    {SYS_fcntl, FCNTL},
    {SYS_kill, KILL},
    {SYS_clone, CLONE},
    {SYS_clone3, PROCESS},
    {SYS_clock_settime, CLOCK},
    {SYS_settimeofday, CLOCK},
    {SYS_adjtimex, CLOCK},
    {SYS_clock_adjtime, CLOCK},
    {SYS_prlimit64, LIMIT_OF},
    {SYS_setrlimit, LIMIT},
    {SYS_socketpair, PAIR},
    {SYS_unshare, UNSHARE},
    {SYS_timer_create, TIMER},
    {SYS_utime, DOOR},
    {SYS_utimes, DOOR},
    {SYS_futimesat, DOOR},
    {SYS_utimensat, DOOR},
    {SYS_pipe, DOOR},
    {SYS_pipe2, DOOR},
    {SYS_eventfd, DOOR},
    {SYS_eventfd2, DOOR},
    {SYS_timerfd_create, DOOR},
    {SYS_epoll_create, DOOR},
    {SYS_epoll_create1, DOOR},
    {SYS_epoll_ctl, DOOR},
    {SYS_epoll_wait, DOOR},
    {SYS_epoll_pwait, DOOR},
    {SYS_epoll_pwait2, DOOR},
    {SYS_io_uring_setup, DOOR},
    {SYS_fork, DOOR},
    {SYS_vfork, DOOR},
    {SYS_execve, DOOR},
    {SYS_execveat, DOOR},
};

/* Programs of 32 bits have another table. These set a clock: stime, settimeofday, adjtimex, clock_settime,
   clock_adjtime, and the last two with long times. Such a call from this program is none that the shim knows. */
static const uint32_t foreign_clocks[] = {25, 79, 124, 264, 343, 404, 405};
enum { FOREIGN_IOCTL_NUMBER = 54 };

static void put_numbers(struct filter *filter) {
    LOAD(arch);
    if_equal(filter, AUDIT_ARCH_X86_64, NEXT, FOREIGN);
    LOAD(nr);
    if_least(filter, __X32_SYSCALL_BIT, ABSENT, NEXT);
    for (size_t i = 0; i < sizeof judged / sizeof *judged; i++)
        if_equal(filter, (uint32_t)judged[i].number, judged[i].place, NEXT);
    end_with(filter, SECCOMP_RET_ALLOW);
    begin_place(filter, FOREIGN);
    LOAD(nr);
    for (size_t i = 0; i < sizeof foreign_clocks / sizeof *foreign_clocks; i++)
        if_equal(filter, foreign_clocks[i], CLOCK, NEXT);
    if_equal(filter, FOREIGN_IOCTL_NUMBER, FOREIGN_IOCTL, DOOR);
}

static void put_clock_requests(struct filter *filter, enum target place, int otherwise) {
    begin_place(filter, place);
    load_argument(filter, 1);
    if_equal(filter, (uint32_t)RTC_SET_TIME, CLOCK, NEXT);
    if_equal(filter, (uint32_t)RTC_EPOCH_SET, CLOCK, NEXT);
    if_equal(filter, (uint32_t)RTC_ALM_SET, CLOCK, NEXT);
    if_equal(filter, (uint32_t)RTC_WKALM_SET, CLOCK, otherwise);
}

/* The C library's own forks: the handler knows those of the shim, and of a child. */
static void put_fork(struct filter *filter) {
    uint64_t place = fork_place();
    begin_place(filter, FORK);
    load(filter, offsetof(struct seccomp_data, instruction_pointer) + sizeof(uint32_t));
    if_equal(filter, (uint32_t)(place >> 32), NEXT, PROCESS);
    load(filter, offsetof(struct seccomp_data, instruction_pointer));
    if_equal(filter, (uint32_t)place, asks_by_signal ? DOOR : ALLOW, PROCESS);
}

/* Those of which only some are stopped, by what is asked. Behind a pointer looks the handler. */
static void put_requests(struct filter *filter) {
    put_clock_requests(filter, FOREIGN_IOCTL, DOOR);
    put_clock_requests(filter, IOCTL, NEXT);
    if_equal(filter, FIOSETOWN, DOOR, NEXT);
    if_equal(filter, SIOCSPGRP, DOOR, ALLOW);
    begin_place(filter, FCNTL);
    load_argument(filter, 1);
    if_equal(filter, F_SETOWN, NEXT, ALLOW);
    load_argument(filter, 2);
    if_equal(filter, (uint32_t)-1, DOOR, ALLOW);
    begin_place(filter, KILL);
    load_argument(filter, 1);
    if_equal(filter, 0, ALLOW, NEXT);
    load_argument(filter, 0);
    if_equal(filter, (uint32_t)-1, DOOR, NEXT);
    if_equal(filter, 1, getpid() == 1 ? ALLOW : DOOR, ALLOW);
    begin_place(filter, CLONE); /* what shares memory and descriptors is as a thread: sanitizers look for leaks so */
    load_argument(filter, 0);
    if_has(filter, CLONE_THREAD, ALLOW, NEXT);
    if_has(filter, CLONE_VM, NEXT, FORK);
    if_has(filter, CLONE_FILES, ALLOW, PROCESS);
    put_fork(filter);
    begin_place(filter, UNSHARE);
    load_argument(filter, 0);
    if_has(filter, CLONE_FILES, DOOR, ALLOW);
    begin_place(filter, PAIR);
    load_argument(filter, 0);
    if_equal(filter, AF_UNIX, DOOR, ALLOW);
    begin_place(filter, TIMER); /* those that measure processors are real */
    load_argument(filter, 0);
    if_equal(filter, CLOCK_PROCESS_CPUTIME_ID, ALLOW, NEXT);
    if_equal(filter, CLOCK_THREAD_CPUTIME_ID, ALLOW, NEXT);
    if_has(filter, UINT32_C(1) << 31, ALLOW, DOOR);
}

/* The limit on descriptors keeps the real ones below the simulated ones: limits.c. To ask for it sets none. */
static void put_limits(struct filter *filter) {
    begin_place(filter, LIMIT);
    load_argument(filter, 0);
    if_equal(filter, RLIMIT_NOFILE, DOOR, ALLOW);
    begin_place(filter, LIMIT_OF);
    load_argument(filter, 1);
    if_equal(filter, RLIMIT_NOFILE, NEXT, ALLOW);
    load_argument(filter, 0);
    if_equal(filter, 0, NEW_LIMIT, NEXT);
    if_equal(filter, (uint32_t)getpid(), NEXT, ALLOW);
    begin_place(filter, NEW_LIMIT);
    load_argument(filter, 2);
    if_equal(filter, 0, NEXT, DOOR);
    load(filter, offsetof(struct seccomp_data, args) + sizeof(uint64_t) * 2 + sizeof(uint32_t));
    if_equal(filter, 0, ALLOW, DOOR);
}

/* ---- whose calls ---- */

struct range {
    uint64_t first, last;
};

static uint32_t upper(uint64_t value) { return (uint32_t)(value >> 32); }

static void load_caller(struct filter *filter, bool is_upper) {
    load(filter, offsetof(struct seccomp_data, instruction_pointer) + (is_upper ? sizeof(uint32_t) : 0));
}

/* A range is a number of whole blocks of 4 GB, or lies within one. */
static void put_range(struct filter *filter, struct range range, enum target inside) {
    bool is_whole = (uint32_t)range.first == 0 && (uint32_t)range.last == UINT32_MAX;
    load_caller(filter, true);
    if (!is_whole) {
        if_equal(filter, upper(range.first), NEXT, SKIP(3));
        load_caller(filter, false);
    }
    if_least(filter, is_whole ? upper(range.first) : (uint32_t)range.first, NEXT, SKIP(1));
    if_above(filter, is_whole ? upper(range.last) : (uint32_t)range.last, NEXT, inside);
}

/* Where libraries lie: around this one, for the real kernel maps them one beside the other, with a sixteenth of all
   addresses or more to the program and to its stack, whatever its layout. Under valgrind, whose own instructions make
   all calls, they lie low, and this is no place. */
static struct range where_libraries_lie(void) {
    static const uint64_t around = 0x100000000000, top = 0x7fffffffffff;
    uint64_t block = (uint64_t)(uintptr_t)behind_call & ~(uint64_t)UINT32_MAX;
    if (block < around) return (struct range){0, 0};
    return (struct range){block - around, block + around < top ? block + around + UINT32_MAX : top};
}

/* The instructions of a part of the program: of itself, which dl_iterate_phdr tells first, or of the library that an
   address is in. */
struct part {
    uint64_t address; /* or 0 */
    struct range range;
};

static int find_part(struct dl_phdr_info *info, size_t size, void *found) {
    struct part *part = found;
    struct range *range = &part->range;
    (void)size;
    *range = (struct range){0, 0};
    for (int i = 0; i < info->dlpi_phnum; i++) {
        const ElfW(Phdr) *header = &info->dlpi_phdr[i];
        uint64_t first = info->dlpi_addr + header->p_vaddr, last = first + header->p_memsz;
        if (header->p_type != PT_LOAD || !(header->p_flags & PF_X)) continue;
        if (range->last == 0 || first < range->first) range->first = first;
        if (last > range->last) range->last = last;
    }
    return part->address == 0 || (part->address >= range->first && part->address < range->last);
}

static void put_part(struct filter *filter, uint64_t address, enum target inside) {
    struct part part = {.address = address};
    struct range range;
    if (RUNNING_ON_VALGRIND || !dl_iterate_phdr(find_part, &part) || part.range.last == 0) return;
    range = part.range;
    if (upper(range.first) != upper(range.last)) {
        put_range(filter, (struct range){range.first, range.first | UINT32_MAX}, inside);
        range.first = range.last & ~(uint64_t)UINT32_MAX;
    }
    put_range(filter, range, inside);
}

/* What is answered to a call of the program, and to one of others, is kept while the caller is looked at. */
static void put_verdict(struct filter *filter, enum target place, uint32_t inside, uint32_t outside) {
    begin_place(filter, place);
    put(filter, BPF_LD | BPF_IMM, inside, NEXT, NEXT);
    put(filter, BPF_ST, 0, NEXT, NEXT);
    put(filter, BPF_LD | BPF_IMM, outside, NEXT, NEXT);
    put(filter, BPF_ST, 1, NEXT, NEXT);
    if_equal(filter, outside, CALLER, CALLER); /* in any case */
}

/* Behind the instruction of the C library's syscall, or 0. */
static uint64_t place_of_numbers(void) {
    static const unsigned char call[] = {0x0f, 0x05};
    enum { MOST = 64 };
    const unsigned char *found = memmem((const void *)(uintptr_t)next_syscall(), MOST, call, sizeof call);
    return found ? (uint64_t)(uintptr_t)(found + sizeof call) : 0;
}

/* A mask that the C library sets has SIGSYS for moments only, or is one of masks.c. Its function syscall sets those that
   it is asked for. */
static void put_masks(struct filter *filter) {
    uint64_t place = place_of_numbers();
    begin_place(filter, MASK);
    load_caller(filter, true);
    if_equal(filter, upper(place), NEXT, SKIP(2));
    load_caller(filter, false);
    if_equal(filter, (uint32_t)place, DOOR, NEXT);
    put_part(filter, (uint64_t)(uintptr_t)next__Fork(), ALLOW);
    if_least(filter, 0, DOOR, DOOR); /* in any case */
}

static void put_verdicts(struct filter *filter) {
    uint64_t own = (uint64_t)(uintptr_t)behind_call;
    struct range libraries = where_libraries_lie();
    put_masks(filter);
    put_verdict(filter, DOOR, SECCOMP_RET_TRAP | MARK, SECCOMP_RET_ALLOW);
    put_verdict(filter, PROCESS, SECCOMP_RET_ERRNO | ENOSYS, SECCOMP_RET_ALLOW);
    put_verdict(filter, CLOCK, SECCOMP_RET_TRAP | MARK, SECCOMP_RET_ERRNO | EPERM);
    begin_place(filter, CALLER);
    load_caller(filter, true);
    if_equal(filter, upper(own), NEXT, SKIP(2));
    load_caller(filter, false);
    if_equal(filter, (uint32_t)own, ALLOW, NEXT);
    if (libraries.last > 0) put_range(filter, libraries, INSIDE);
    put_part(filter, 0, INSIDE);
    put(filter, BPF_LD | BPF_MEM, 1, NEXT, NEXT);
    put(filter, BPF_RET | BPF_A, 0, NEXT, NEXT);
    begin_place(filter, INSIDE);
    put(filter, BPF_LD | BPF_MEM, 0, NEXT, NEXT);
    put(filter, BPF_RET | BPF_A, 0, NEXT, NEXT);
    begin_place(filter, ALLOW);
    end_with(filter, SECCOMP_RET_ALLOW);
    begin_place(filter, ABSENT);
    end_with(filter, SECCOMP_RET_ERRNO | ENOSYS);
}

/* For all threads, if there are more than one; without what slows down programs on older kernels, if it can be left
   out. Whether it is set. */
static bool set_filter(struct sock_fprog *program) {
    static const long flags[] = {SECCOMP_FILTER_FLAG_TSYNC | SECCOMP_FILTER_FLAG_SPEC_ALLOW,
                                 SECCOMP_FILTER_FLAG_SPEC_ALLOW, 0};
    if (prctl(PR_SET_NO_NEW_PRIVS, 1, 0, 0, 0) != 0) return false;
    for (size_t i = 0; i < sizeof flags / sizeof *flags && !RUNNING_ON_VALGRIND; i++)
        if (real_call(SYS_seccomp, SECCOMP_SET_MODE_FILTER, flags[i], (long)program, 0, 0, 0) == 0) return true;
    return prctl(PR_SET_SECCOMP, SECCOMP_MODE_FILTER, program) == 0;
}

/* ---- other programs ---- */

/* A filter stays over exec, and this one knows its program by where its libraries lie. So another program's lie
   elsewhere: low, or high if this one's lie low. They do in the older layout, and if the stack has no bound. */
struct layout {
    long before;
    struct rlimit stack;
};

static bool lie_low(const struct layout *layout) {
    struct rlimit unbounded = {RLIM_INFINITY, RLIM_INFINITY};
    if (RAW(SYS_personality, layout->before | ADDR_COMPAT_LAYOUT) >= 0) return true;
    return RAW(SYS_setrlimit, RLIMIT_STACK, &unbounded) == 0; /* some containers forbid the other */
}

static bool lie_high(const struct layout *layout) {
    struct rlimit bounded = {8 << 20, layout->stack.rlim_max};
    bool has_changed = RAW(SYS_personality, layout->before & ~(long)ADDR_COMPAT_LAYOUT) >= 0;
    if (layout->stack.rlim_cur == RLIM_INFINITY) RAW(SYS_setrlimit, RLIMIT_STACK, &bounded);
    return has_changed || !(layout->before & ADDR_COMPAT_LAYOUT);
}

/* Whether it will be another one. */
static bool begin_layout(struct layout *layout) {
    static const uint64_t middle = 0x400000000000;
    layout->before = RAW(SYS_personality, UINT32_MAX);
    next_getrlimit()(RLIMIT_STACK, &layout->stack);
    return (uint64_t)(uintptr_t)behind_call >= middle ? lie_low(layout) : lie_high(layout);
}

static void end_layout(const struct layout *layout) {
    RAW(SYS_personality, layout->before);
    RAW(SYS_setrlimit, RLIMIT_STACK, &layout->stack);
}

/* Whether there is such a program: if not, the real kernel tells why. An empty path names an open file. */
static bool is_there(long number, const long given[6]) {
    bool has_folder = number == SYS_execveat;
    const char *path = (const char *)given[has_folder ? 1 : 0];
    return can_read(path, 1) && (!*path || RAW(SYS_faccessat, has_folder ? given[0] : AT_FDCWD, path, X_OK) == 0);
}

/* One that would lie where this program does would be ended in the midst of its work: so it isn't run. */
long run_program(long number, const long given[6]) {
    struct layout layout;
    bool is_other = begin_layout(&layout) || !has_filter || RUNNING_ON_VALGRIND;
    long result = -EPERM;
    if (is_other || !is_there(number, given)) {
        result = real_call(number, given[0], given[1], given[2], given[3], given[4], given[5]);
    } else {
        refuse(EPERM, "exec(%s): the filter would take it for this program, since personality and a stack without bound "
               "are forbidden here", (const char *)given[number == SYS_execveat ? 1 : 0]);
    }
    end_layout(&layout);
    return result;
}

/* ---- the answers ---- */

/* A call of a child: all is real that would do no harm. */
static long answer_child(long number, const long given[6]) {
    long result;
    if (number == SYS_ioctl && !is_harmless_request((int)given[0], (unsigned long)given[1], (const void *)given[2]))
        return -1;
    if (number == SYS_fcntl && !is_harmless_command((int)given[1], given[2])) return -1;
    call_outside(number, given, &result);
    return result;
}

/* The call may wait, or another program is to have the mask of signals: so it has the one that there was. */
static long answer_child_with_mask(long number, const long given[6], ucontext_t *context) {
    uint64_t all;
    long result;
    RAW(SYS_rt_sigprocmask, SIG_SETMASK, &context->uc_sigmask, &all, sizeof all);
    result = answer_child(number, given);
    RAW(SYS_rt_sigprocmask, SIG_SETMASK, &all, NULL, sizeof all);
    return result;
}

/* What the shim's functions answer, and errno. */
static long answer_call(unsigned int table, long number, const long given[6]) {
    long result;
    if (table != AUDIT_ARCH_X86_64)
        return refuse_number(number, "int $0x80 with %ld: calls of 32-bit programs are not simulated", number);
    if (number == SYS_ioctl && !is_harmless_request((int)given[0], (unsigned long)given[1], (const void *)given[2]))
        return -1;
    if (number == SYS_ioctl)
        return plain_answer(real_call(number, given[0], given[1], given[2], given[3], given[4], given[5]));
    if (call_by_number(number, given, &result)) return result;
    return refuse_number(number, "syscall(%ld): this call by its number is not simulated", number);
}

static void answer_at_door(int signal, siginfo_t *info, void *context) {
    greg_t *registers = ((ucontext_t *)context)->uc_mcontext.gregs;
    long given[6] = {registers[REG_RDI], registers[REG_RSI], registers[REG_RDX],
                     registers[REG_R10], registers[REG_R8],  registers[REG_R9]};
    uintptr_t place = place_at_door;
    int saved = errno;
    long result;
    if (info->si_code != BY_FILTER || info->si_errno != MARK) {
        take_own_door_signal(signal, info, context);
        return;
    }
    if (info->si_arch == AUDIT_ARCH_X86_64 && info->si_syscall == SYS_clone && (is_outside || is_making_child())) {
        registers[REG_RAX] = real_call(SYS_clone, given[0], given[1], given[2], given[3], given[4], given[5]);
        errno = saved;
        return;
    }
    if (info->si_arch == AUDIT_ARCH_X86_64 && info->si_syscall == SYS_rt_sigprocmask) {
        registers[REG_RAX] = change_mask_of(context, given);
        errno = saved;
        return;
    }
    place_at_door = (uintptr_t)registers[REG_RIP];
    if (is_outside && info->si_arch == AUDIT_ARCH_X86_64) {
        result = answer_child_with_mask(info->si_syscall, given, context);
    } else {
        result = answer_call(info->si_arch, info->si_syscall, given);
    }
    place_at_door = place;
    registers[REG_RAX] = result == -1 ? -errno : result;
    errno = saved;
}

void shut_doors(void) {
    struct filter *filter = calloc(1, sizeof *filter);
    struct sock_fprog program;
    if (!filter) return;
    put_numbers(filter);
    put_requests(filter);
    put_limits(filter);
    put_verdicts(filter);
    join_places(filter);
    program = (struct sock_fprog){(unsigned short)filter->count, filter->code};
    handle_door_signal(answer_at_door);
    has_filter = set_filter(&program);
    if (!has_filter)
        say("no filter can be set (%s): what is called past the C library reaches the real kernel",
            strerrordesc_np(errno));
    free(filter);
}
