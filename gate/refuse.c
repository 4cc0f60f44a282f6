/* Preloaded, it refuses one request for memory of a program: the one of the number REFUSE, counted from 1. If it did, it
   makes the file REFUSED. Without REFUSE it refuses none. For gate/sweep. */
#include <dlfcn.h>
#include <fcntl.h>
#include <stdatomic.h>
#include <stdlib.h>
#include <unistd.h>

/* How many requests came. Several threads may ask at once. */
static atomic_long came;

/* The number of the refused one, and -1 before the first one came. */
static atomic_long refused = -1;

static void tell(void)
{
    const char *file = getenv("REFUSED");
    int made = file ? open(file, O_CREAT | O_WRONLY, 0600) : -1;

    if (made >= 0)
        close(made);
}

static int is_refused(void)
{
    if (refused < 0) {
        const char *number = getenv("REFUSE");

        refused = number ? atol(number) : 0;
    }
    if (++came != refused)
        return 0;
    tell();
    return 1;
}

void *malloc(size_t size)
{
    static void *(*granted)(size_t);

    if (!granted)
        granted = (void *(*)(size_t))dlsym(RTLD_NEXT, "malloc");
    return is_refused() ? NULL : granted(size);
}

void *realloc(void *block, size_t size)
{
    static void *(*granted)(void *, size_t);

    if (!granted)
        granted = (void *(*)(void *, size_t))dlsym(RTLD_NEXT, "realloc");
    return is_refused() ? NULL : granted(block, size);
}
