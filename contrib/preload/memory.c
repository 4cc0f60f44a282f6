/* The memory of the shim, and of the library within it. build leads their malloc, calloc, realloc and free here by the
   linker's --wrap. For a program may have an allocator of its own, which may read a clock or write a line: entered by
   a call that holds the kernel's lock, it would wait for that lock for ever. */
#include "preload.h"

#include <pthread.h>
#include <sys/mman.h>
#if __has_include(<valgrind/memcheck.h>)
#include <valgrind/memcheck.h>
#else
#define VALGRIND_MALLOCLIKE_BLOCK(block, size, red, zeroed) (void)(block)
#define VALGRIND_RESIZEINPLACE_BLOCK(block, before, size, red) (void)(block)
#define VALGRIND_FREELIKE_BLOCK(block, red) (void)(block)
#endif

/* What --wrap makes of the names. */
void *__wrap_malloc(size_t size);
void *__wrap_calloc(size_t count, size_t size);
void *__wrap_realloc(void *block, size_t size);
void __wrap_free(void *block);

/* Stands before each block. Its own bytes count in `total`. */
struct head {
    size_t total;
    union {
        size_t asked;
        struct head *next; /* of a free block */
    };
};
_Static_assert(sizeof(struct head) == 16, "a block lies at a multiple of 16");

/* Up to 256 bytes there is a class for each multiple of 16, then four for each doubling. What is larger than the last
   class is a mapping of its own. */
enum { SMALL = 16, LARGEST = 1 << 18, CLASSES = SMALL + 4 * 10, CHUNK = 1 << 20, PAGE = 4096 };

static pthread_mutex_t lock = PTHREAD_MUTEX_INITIALIZER;
static struct head *free_blocks[CLASSES];
static char *chunk;
static size_t left_in_chunk;

static unsigned int class_of(size_t total) {
    unsigned int shift;
    if (total <= 256) return (unsigned int)((total + 15) / 16 - 1);
    shift = 61 - (unsigned int)__builtin_clzl(total - 1);
    return SMALL + (shift - 6) * 4 + (unsigned int)((total - 1) >> shift & 3);
}

static size_t size_of_class(unsigned int row) {
    if (row < SMALL) return ((size_t)row + 1) * 16;
    return (size_t)((row - SMALL) % 4 + 5) << ((row - SMALL) / 4 + 6);
}

static void *map(size_t size) {
    void *made = mmap(NULL, size, PROT_READ | PROT_WRITE, MAP_PRIVATE | MAP_ANONYMOUS, -1, 0);
    return made == MAP_FAILED ? NULL : made;
}

void lock_memory(void) { pthread_mutex_lock(&lock); }

void unlock_memory(void) { pthread_mutex_unlock(&lock); }

/* The next bytes of a chunk. What is left of the chunk before is given up: its pages were never touched. */
static struct head *cut(size_t total) {
    struct head *made;
    if (left_in_chunk < total) {
        char *more = map(CHUNK);
        if (!more) return NULL;
        chunk = more;
        left_in_chunk = CHUNK;
    }
    made = (struct head *)(void *)chunk;
    chunk += total;
    left_in_chunk -= total;
    return made;
}

static struct head *take_small(size_t total) {
    unsigned int row = class_of(total);
    struct head *made;
    pthread_mutex_lock(&lock);
    made = free_blocks[row];
    if (made) {
        free_blocks[row] = made->next;
    } else {
        made = cut(size_of_class(row));
        if (made) made->total = size_of_class(row);
    }
    pthread_mutex_unlock(&lock);
    return made;
}

static size_t whole_pages(size_t total) { return (total + PAGE - 1) & ~(size_t)(PAGE - 1); }

static struct head *take_large(size_t total) {
    struct head *made = map(whole_pages(total));
    if (made) made->total = whole_pages(total);
    return made;
}

/* A block, without a word to valgrind. */
static struct head *take_block(size_t size) {
    QUIET_WITHIN;
    size_t total = size + sizeof(struct head);
    struct head *made = size > PTRDIFF_MAX - PAGE ? NULL : total <= LARGEST ? take_small(total) : take_large(total);
    if (made) {
        made->asked = size;
    } else {
        errno = ENOMEM;
    }
    return made;
}

void *__wrap_malloc(size_t size) {
    struct head *made = take_block(size);
    if (!made) return NULL;
    VALGRIND_MALLOCLIKE_BLOCK(made + 1, size, 0, 0);
    return made + 1;
}

void *__wrap_calloc(size_t count, size_t size) {
    struct head *made = size > 0 && count > PTRDIFF_MAX / size ? NULL : take_block(count * size);
    if (!made) {
        errno = ENOMEM;
        return NULL;
    }
    VALGRIND_MALLOCLIKE_BLOCK(made + 1, count * size, 0, 1);
    /* A fresh mapping is 0 already. */
    if (made->total <= LARGEST) memset(made + 1, 0, count * size);
    return made + 1;
}

void __wrap_free(void *block) {
    QUIET_WITHIN;
    struct head *head = block ? (struct head *)block - 1 : NULL;
    unsigned int row;
    if (!head) return;
    VALGRIND_FREELIKE_BLOCK(block, 0);
    if (head->total > LARGEST) {
        int saved = errno;
        munmap(head, head->total);
        errno = saved;
        return;
    }
    row = class_of(head->total);
    pthread_mutex_lock(&lock);
    head->next = free_blocks[row];
    free_blocks[row] = head;
    pthread_mutex_unlock(&lock);
}

/* A large block that stays large is moved by the kernel, without a copy. */
static void *resize_large(struct head *head, size_t size) {
    size_t total = whole_pages(size + sizeof *head), before = head->asked;
    struct head *made = total == head->total ? head : mremap(head, head->total, total, MREMAP_MAYMOVE);
    if (made == MAP_FAILED) return NULL;
    made->total = total;
    made->asked = size;
    if (made == head) {
        VALGRIND_RESIZEINPLACE_BLOCK(made + 1, before, size, 0);
    } else {
        VALGRIND_FREELIKE_BLOCK(head + 1, 0);
        VALGRIND_MALLOCLIKE_BLOCK(made + 1, size, 0, 1);
    }
    return made + 1;
}

void *__wrap_realloc(void *block, size_t size) {
    struct head *head = block ? (struct head *)block - 1 : NULL;
    void *made;
    if (head && head->total > LARGEST && size > LARGEST && size <= PTRDIFF_MAX - PAGE) return resize_large(head, size);
    made = __wrap_malloc(size);
    if (!made || !head) return made;
    memcpy(made, block, head->asked < size ? head->asked : size);
    __wrap_free(block);
    return made;
}
