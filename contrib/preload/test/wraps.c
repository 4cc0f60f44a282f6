/* A library behind the shim that stands in for fsync itself, and finds the C library's by a handle of it. */
#include <dlfcn.h>
#include <unistd.h>

int fsync(int fd) {
    int (*real)(int) = (int (*)(int))dlsym(dlopen("libc.so.6", RTLD_LAZY), "fsync");
    return write(1, "wrapped\n", 8) == 8 ? real(fd) : -1;
}
