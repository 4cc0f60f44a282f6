/* dlsym and dlopen. A function that a program finds by a handle of the C library, as ctypes.CDLL("libc.so.6") of Python
   does, is the shim's, if the shim stands in for it. So it does what it does by name.

   RTLD_NEXT, RTLD_DEFAULT and dlopen depend on who asks, and so the C library looks at the address that it returns to:
   for these the shim jumps there, and is not to be seen. */
#include "preload.h"

#include <dlfcn.h>
#include <stdlib.h>
#include <sys/auxv.h>

typedef void *(*finder)(void *handle, const char *name);

/* A function of the C library that looks at who calls it. It has always had this version on x86-64. */
static void *find_old(const char *name) {
    void *found = dlvsym(RTLD_NEXT, name, "GLIBC_2.2.5");
    if (!found) abort();
    return found;
}

finder real_dlsym(void) {
    static _Atomic(finder) found;
    if (!found) found = (finder)find_old("dlsym");
    return found;
}

/* Where dlopen goes on, after a word of a library that is bound past the shim. */
void *begin_dlopen(const char *path, int flags);
void *begin_dlopen(const char *path, int flags) {
    static void *_Atomic found;
    if (!found) found = find_old("dlopen");
    if (flags & RTLD_DEEPBIND)
        refuse(errno, "dlopen(%s) with RTLD_DEEPBIND: its calls are the C library's, and not simulated", path);
    return found;
}

/* A jump to what `found` answers, with the arguments that there were. */
#define JUMP_BY(found)           \
    "    push %rdi\n"            \
    "    push %rsi\n"            \
    "    sub $8, %rsp\n"         \
    "    call " found "\n"       \
    "    add $8, %rsp\n"         \
    "    pop %rsi\n"             \
    "    pop %rdi\n"             \
    "    jmp *%rax\n"

void *find_by_handle(void *handle, const char *name);
__asm__(".text\n"
        ".hidden find_by_handle, real_dlsym, begin_dlopen\n"
        ".globl dlsym, dlopen\n"
        ".type dlsym, @function\n"
        ".type dlopen, @function\n"
        "dlsym:\n"
        "    lea 1(%rdi), %rax\n" /* 0 for RTLD_NEXT, 1 for RTLD_DEFAULT */
        "    cmp $1, %rax\n"
        "    ja find_by_handle\n"
        JUMP_BY("real_dlsym")
        ".size dlsym, . - dlsym\n"
        "dlopen:\n"
        JUMP_BY("begin_dlopen")
        ".size dlopen, . - dlopen\n");

/* Where the object lies that has an address, or NULL. */
static const void *object_of(const void *address, Dl_info *info) {
    return dladdr(address, info) ? info->dli_fbase : NULL;
}

/* Some functions of the C library that tell the time are the real kernel's own, which it maps into each program. */
static bool is_in_c_library(const void *function) {
    Dl_info info, library;
    const void *object = object_of(function, &info);
    if (object == (const void *)getauxval(AT_SYSINFO_EHDR)) return object != NULL;
    return object && object == object_of(real_dlsym()(RTLD_NEXT, "getpid"), &library);
}

/* What a loaded object and those that it needs have by a name, or NULL. */
static void *find_in(const char *path, const char *name) {
    void *handle = dlopen(path, RTLD_LAZY | RTLD_NOLOAD), *found = handle ? real_dlsym()(handle, name) : NULL;
    if (handle) dlclose(handle);
    return found;
}

/* A library that stands in for a function itself, behind the shim, asks for the C library's in order to call it: the
   shim's would lead to that library again. */
static bool stands_in(const void *caller, const char *name) {
    Dl_info info, found;
    const void *object = object_of(caller, &info), *own = object ? find_in(info.dli_fname, name) : NULL;
    return own && object_of(own, &found) == object;
}

/* An error that is told later would be of a look that the program didn't make. */
void *find_by_handle(void *handle, const char *name) {
    const void *caller = __builtin_return_address(0);
    void *found = real_dlsym()(handle, name), *own;
    Dl_info shim;
    if (!found || !is_in_c_library(found) || !object_of((const void *)(uintptr_t)find_by_handle, &shim)) return found;
    own = find_in(shim.dli_fname, name);
    if (own && object_of(own, &(Dl_info){0}) == shim.dli_fbase && !stands_in(caller, name)) found = own;
    dlerror();
    return found;
}
