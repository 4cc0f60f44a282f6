/* What the files about children share: children.c (forks), ends.c (real pipes and sockets), bridge.c (bytes), pace.c
 * (time), pidfd.c and spawn.c.
 *
 * A child is a real process that a fork made. What is simulated here is real there: each pipe and socket that it
 * inherits is a real one at the same number. In the simulated kernel it is a process, too, a copy of this one, and what
 * it does to its pipes is done there in its name.
 *
 * All of this is kept under the table's lock. */
#ifndef CHILDREN_H
#define CHILDREN_H

#include "preload.h"

#include <poll.h>
#include <sys/resource.h>
#include <sys/syscall.h>

#pragma GCC visibility push(hidden)

enum { PAGE = 4096 };

/* What children hold of a description, and the real pipe or socket that stands for it. */
struct end {
    struct description *description; /* held; NULL once the end is gone */
    uint64_t process;                /* of the simulated kernel, in whose name it is acted; and its number there */
    int number;
    pid_t pid;                /* of the first child that had it */
    int real;                 /* the shim's real end */
    int childs;               /* while a fork is made, the child's; else -1 */
    int kept;                 /* of a socket that the program has, too: the child's, for later children; else -1 */
    bool is_shared;           /* while a fork is made: an earlier child has it, too */
    bool is_socket;
    bool takes, gives;        /* whether the child may read here, and write */
    bool is_over, is_reset;   /* it has closed what it wrote to, with bytes for it that it hadn't read */
    size_t shown;             /* so many bytes were shown to it that it hasn't taken */
    uint64_t made, moved;     /* the real times at which it was made, and at which bytes came last */
    struct end *next;
};

struct child {
    uint64_t process;
    pid_t pid;      /* 0 before the fork has answered */
    int pidfd;      /* the real one; before it is there, an eventfd; -1 after the child's end */
    bool may_end;   /* it has closed what it wrote to */
    bool has_ended, is_reaped;
    uint64_t ended; /* the real time at which its end was seen */
    struct child *next;
};

/* ---- children.c ---- */

extern struct child *all_children; /* in the order of their forks */
extern struct end *all_ends;       /* in the order of their children, and of their numbers */
/* Real time, and what all processors have spent on this program, in UNITs. */
uint64_t real_moment(void);
uint64_t computed_until_now(void);
/* The shim in a process of the simulated kernel. */
struct nippersage_task acting(uint64_t process);
/* A child has closed what it wrote to, as it does at its end: both can be seen at once if one waits a little. Whether a
   child has ended. */
void note_closing(uint64_t process);
bool await_end(void);
/* A child whose end was told to the program. */
void note_reaped(pid_t pid);
/* Whether this child lives, or one that was made after it. */
bool lives_or_later(uint64_t process);
/* fork without the program's handlers of forks. The child keeps this one of the shim's own descriptors, if any. */
enum { NONE = -1 };
pid_t fork_quietly(int kept);

/* ---- ends.c ---- */

/* Real ends for all that a child inherits, and a number for its pidfd, which is an eventfd until then. 0, or minus an
   error number, and then there is none. */
int make_ends(struct end **made, int *pidfd);
/* The end of a description in a list, or NULL. */
struct end *find_end(struct end *list, const struct description *description);
/* Gives up ends that no child has come to have. */
void give_up_ends(struct end *made);
/* In the child: each real end goes to the numbers that it had here, and what is the shim's is closed. */
void take_numbers(struct end *made, int kept);
/* The process of the simulated kernel keeps one number of each end, and nothing else. The ends are linked. */
void keep_ends(struct end *made, uint64_t process);
/* A real descriptor of the shim's own goes above all numbers of the program. Minus an error number if it can't. */
int lift(int fd);
/* The end is no more: what the child had is closed in the simulated kernel. */
void end_end_of_child(struct end *end);
/* From then on only children hold the real socket, so that their closing it is seen. */
void let_kept_go(struct end *end);

/* ---- bridge.c ---- */

/* What was shown of an end isn't any more. */
void show_no_more(struct end *end);

/* ---- what is looked at in the real kernel, in the order of the lists: under the table's lock ---- */

/* Children, of children.c, and pidfds that aren't ready yet, of pidfd.c: what is asked of them, and how many they are;
   then what was answered. Whether there is news. */
int fill_children(struct pollfd *files);
bool look_at_children(const struct pollfd *files);
int fill_pidfds(struct pollfd *files);
bool ring_pidfds(const struct pollfd *files);
/* Whether a child holds the clock. */
bool is_time_held(void);

#pragma GCC visibility pop

#endif
