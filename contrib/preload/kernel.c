/* The one simulated kernel of a program, the callers of its threads, and the end of the program. */
#include "preload.h"

#include <dlfcn.h>
#include <pthread.h>
#include <stdarg.h>
#include <stdio.h>
#include <stdlib.h>
#include <sys/syscall.h>

FORWARD(_exit)
FORWARD(pause)

enum { MOST_CALLERS = 1 << 30 };

static struct nippersage_kernel *_Atomic kernel;
static pthread_once_t once = PTHREAD_ONCE_INIT;
static _Thread_local bool is_starting;
static atomic_uint callers;
static int sleeping;

/* The C library keeps an older pthread_cond_timedwait, too, which dlsym may find. That of another library, as a
   sanitizer's, comes before both. */
static void *newer_of(const char *name, void *found) {
    void *newer = dlvsym(RTLD_NEXT, name, "GLIBC_2.3.2");
    Dl_info of_found, of_newer;
    if (!newer || !found) return newer ? newer : found;
    if (dladdr(found, &of_found) == 0 || dladdr(newer, &of_newer) == 0) return newer;
    return of_found.dli_fbase == of_newer.dli_fbase ? newer : found;
}

static void *find_next(const char *name) {
    void *found = real_dlsym()(RTLD_NEXT, name);
    return strncmp(name, "pthread_cond", 12) == 0 ? newer_of(name, found) : found;
}

/* The linker makes these. */
#pragma GCC visibility push(hidden)
extern const struct forward __start_forwards[], __stop_forwards[];
#pragma GCC visibility pop

void find_forwards(void) {
    for (const struct forward *each = __start_forwards; each < __stop_forwards; each++)
        if (!*each->found) *each->found = find_next(each->name);
    dlerror(); /* it may be that not all are there */
}

void *next_of(const char *name) {
    void *found = find_next(name);
    if (!found) {
        fprintf(stderr, "nippersage: the C library has no %s\n", name);
        abort();
    }
    return found;
}

/* Nothing here asks for a setting, for a setting may be what the line is about. A line may be about a call that holds a
   lock: so it is written without the C library, in which a thread may be cancelled. */
static void say_all(const char *format, va_list arguments) {
    char line[512];
    int size = snprintf(line, sizeof line, "nippersage: ");
    size += vsnprintf(line + size, sizeof line - (size_t)size - 1, format, arguments);
    if ((size_t)size > sizeof line - 2) size = sizeof line - 2;
    line[size++] = '\n';
    RAW(SYS_write, STDERR_FILENO, line, size);
}

void say(const char *format, ...) {
    int saved = errno;
    va_list arguments;
    va_start(arguments, format);
    say_all(format, arguments);
    va_end(arguments);
    errno = saved;
}

/* Makes the kernel. Nothing here calls what the program may have replaced by a function that reads a clock or uses a
   descriptor, as its allocator: the memory is memory.c's. */
static void start(void) {
    struct nippersage_task first = {NULL, 1, 1};
    struct timespec began = timespec_of(START);
    int status;
    is_starting = true;
    bound_real_descriptors();
    status = make_table();
    if (status == 0) status = nippersage_open(&settings()->limits, &first.kernel);
    if (status == 0) begin_history(first.kernel);
    sleeping = status < 0 ? status : nippersage_epoll_create1(first, 0);
    if (sleeping >= 0 && (status = nippersage_tick(first, &began)) < 0) sleeping = status;
    if (sleeping < 0) {
        say("no kernel can be made: %s", strerrordesc_np(-sleeping));
        next__exit()(STATUS_ENDLESS);
    }
    shut_doors();
    kernel = first.kernel;
    is_starting = false;
}

/* The history has as many records as the user allows. What the program has printed is written, unless another thread
   is printing: this thread may hold a lock for which that one waits. */
static _Noreturn void end_full(void) {
    static atomic_flag is_told = ATOMIC_FLAG_INIT;
    if (atomic_flag_test_and_set(&is_told))
        for (;;) next_pause()();
    say("the history has %llu records, as many as NIPPERSAGE_RECORDS allows; status %d",
        (unsigned long long)settings()->records, STATUS_FULL);
    if (ftrylockfile(stdout) == 0) {
        fflush(stdout);
        funlockfile(stdout);
    }
    _exit(STATUS_FULL);
}

static void look_at_records(void) {
    uint64_t records = 0;
    if (nippersage_events(kernel, &records) == 0 && records >= settings()->records) end_full();
}

/* While a thread makes the kernel, a handler that breaks into it finds none, and its calls answer EINVAL. */
struct nippersage_task self(void) {
    uint32_t *caller = &this_thread.callers[this_thread.depth];
    unsigned long calls = atomic_load_explicit(&this_thread.calls, memory_order_relaxed) + 1;
    if (!kernel && !is_starting) pthread_once(&once, start);
    atomic_store_explicit(&this_thread.calls, calls, memory_order_relaxed);
    if (*caller == 0) *caller = atomic_fetch_add(&callers, 1) % MOST_CALLERS + 1;
    if (!this_thread.is_counted) join_threads();
    if (settings()->records > 0) look_at_records();
    return (struct nippersage_task){kernel, *caller, 1};
}

struct nippersage_kernel *the_kernel(void) {
    return kernel;
}

void forget_kernel(void) { kernel = NULL; }

int sleeping_instance(void) {
    QUIET;
    self();
    return sleeping;
}

__attribute__((constructor)) static void begin(void) {
    QUIET;
    const char *path = settings()->log;
    learn_first_stack();
    is_logged = path && (unlink(path) == 0 || errno == ENOENT);
    if (path && !is_logged) say("the log can't be made anew at %s: %s", path, strerror(errno));
    at_quick_exit(write_history_once);
    this_thread.is_counted = true;
    take_seat();
    self();
    keep_signals();
}

__attribute__((destructor)) static void end(void) {
    flush_streams();
    write_history_once();
}

void _exit(int status) {
    write_history_once();
    next__exit()(status);
    abort();
}

void _Exit(int status) { _exit(status); }
