/* What a child doesn't have of its parent: eventfds, timers and instances are of the simulated kernel, and there is none
   in a child. Their numbers are free there. A call that names one is told so, with a line; a close is answered as if it
   were there. */
#include "children.h"

static int first = -1; /* of the parent's simulated numbers, in a child */

void remember_lost(void) { first = FIRST; }

/* What the number of a child was in its parent, or NULL. */
static const char *lost_at(int fd) {
    const struct description *description;
    bool closes;
    if (first < 0 || fd < first || fd - first >= NUMBERS) return NULL;
    description = description_at(fd - first, &closes);
    if (!description) return NULL;
    switch (description->kind) {
    case EVENTFD: return "an eventfd";
    case TIMERFD: return "a timer";
    case EPOLL: return "an instance";
    default: return NULL;
    }
}

bool is_lost(int fd) { return lost_at(fd) != NULL; }

long answer_unless_lost(long result, const char *call, int fd) {
    const char *lost = result < 0 && errno == EBADF ? lost_at(fd) : NULL;
    return lost ? refuse(EBADF, "%s(%d): %s of the parent isn't there in a child", call, fd, lost) : result;
}

int close_lost(int fd, int status) {
    if (!lost_at(fd)) return status;
    free_number(fd - first);
    return status < 0 && errno == EBADF ? 0 : status;
}
