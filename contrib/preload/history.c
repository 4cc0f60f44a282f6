/* The history. Without a file for it records are forgotten as they come. With one they go there, some thousands at a
   time: the library writes them under the kernel's lock, whole lines at a time, and forgets them. So a run of any length
   takes the same memory, and one that ends in any way leaves what was written until then.

   The file is open from the beginning to the end, above all numbers of the program, so that no function closes it, and
   children don't have it. */
#include "children.h"

#include <sys/file.h>
#include <sys/stat.h>

static int file = -1;   /* that the history goes to, or -1 */
static bool has_failed; /* nothing more is written; under the kernel's lock */

static void say_lost(long error) {
    say("the history can't be written to %s: %s; the program goes on without it", settings()->history,
        strerrordesc_np((int)error));
}

/* ---- the file ---- */

/* Where the hard limit leaves no number above all of the program's, one above its real ones does: a program that names
   it means a simulated one, and has no children. */
static long lift_file(int fd) {
    long lifted = RAW(SYS_fcntl, fd, F_DUPFD_CLOEXEC, FIRST + NUMBERS);
    if (lifted == -EINVAL) lifted = RAW(SYS_fcntl, fd, F_DUPFD_CLOEXEC, FIRST);
    return lifted == -EINVAL ? -EMFILE : lifted;
}

/* One to which another program writes its history stays, as that of a program which runs this one over a shim of its
   own. */
static long empty_file(int fd) {
    struct stat what;
    if (RAW(SYS_fstat, fd, &what) < 0 || !S_ISREG(what.st_mode)) return 0;
    if (RAW(SYS_flock, fd, LOCK_EX | LOCK_NB) == -EWOULDBLOCK) return -EBUSY;
    return RAW(SYS_ftruncate, fd, 0);
}

/* Its number, or minus an error number. */
static long make_file(void) {
    struct rlimit before;
    long opened, made;
    do {
        opened = RAW(SYS_openat, AT_FDCWD, settings()->history, O_WRONLY | O_CREAT | O_CLOEXEC, 0666);
    } while (opened == -EINTR);
    if (opened < 0) return opened;
    made = empty_file((int)opened);
    if (made == 0) made = raise_real_limit(&before) ? 0 : -EMFILE;
    if (made == 0) {
        made = lift_file((int)opened);
        lower_real_limit(&before);
    }
    RAW(SYS_close, opened);
    return made;
}

void begin_history(struct nippersage_kernel *kernel) {
    if (settings()->history) {
        long made = make_file();
        file = (int)made;
        if (made < 0) say_lost(-made);
    }
    nippersage_stream(kernel, file >= 0 ? file : NIPPERSAGE_FORGET);
}

/* ---- what the library writes ---- */

/* Of a line that was cut short the file keeps nothing. From a pipe nothing can be taken back. */
static void take_part_back(int fd, const char *bytes, size_t written) {
    const char *last = memrchr(bytes, '\n', written);
    size_t part = last ? written - (size_t)(last + 1 - bytes) : written;
    long end = RAW(SYS_lseek, fd, 0, SEEK_CUR);
    if (end >= 0 && part > 0) RAW(SYS_ftruncate, fd, end - (long)part);
}

/* How many bytes were written, and why no more. */
static size_t write_as_far(int fd, const char *bytes, size_t count, long *error) {
    size_t written = 0;
    while (written < count) {
        long taken = write_quietly(fd, bytes + written, count - written);
        if (taken > 0) {
            written += (size_t)taken;
        } else if (taken != -EINTR) {
            *error = taken < 0 ? -taken : EIO;
            return written;
        }
    }
    return written;
}

/* build leads the library's write here: it writes nothing but the history, and whole lines of it. It is told that all was
   written, whatever comes, for else it would keep the records. */
__attribute__((visibility("hidden"))) ssize_t __wrap_write(int fd, const void *bytes, size_t count);
ssize_t __wrap_write(int fd, const void *bytes, size_t count) {
    size_t written;
    long error;
    if (has_failed) return (ssize_t)count;
    written = write_as_far(fd, bytes, count, &error);
    if (written < count) {
        has_failed = true;
        take_part_back(fd, bytes, written);
        say_lost(error);
    }
    return (ssize_t)count;
}

/* ---- what is left ---- */

/* Held so that a program that ends twice leaves a whole history. */
static pthread_mutex_t lock = PTHREAD_MUTEX_INITIALIZER;

/* Later records go there, or nowhere. The library fails by itself for want of memory. */
static void write_rest(int later) {
    int status = nippersage_stream(the_kernel(), later);
    if (status == 0) return;
    nippersage_stream(the_kernel(), NIPPERSAGE_FORGET);
    say_lost(-status);
}

void keep_history(void) {
    if (is_outside) return;
    QUIET;
    pthread_mutex_lock(&lock);
    if (file >= 0 && the_kernel()) write_rest(file);
    pthread_mutex_unlock(&lock);
}

/* A file may tell only as it is closed that it has no room. */
static void end_file(void) {
    long status;
    if (file < 0 || !the_kernel()) return;
    write_rest(NIPPERSAGE_FORGET);
    status = RAW(SYS_close, file);
    file = -1;
    if (status < 0 && !has_failed) say_lost(-status);
}

/* A child has none. */
void write_history_once(void) {
    static bool is_written;
    if (is_outside) return;
    QUIET;
    tell_what_came_again();
    pthread_mutex_lock(&lock);
    if (!is_written) hand_over();
    is_written = true;
    end_file();
    pthread_mutex_unlock(&lock);
}
