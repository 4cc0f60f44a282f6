/* Copies of the bytes that wait in the simulated kernel, one for each end that receives. The kernel can't show what it
   holds without taking it: so MSG_PEEK and splice look here. A copy changes together with the kernel, under the table's
   lock. */
#include "preload.h"

#include <stdlib.h>

enum { LEAST_ROOM = 4096 };

/* What waits begins at `first`. It is moved to the beginning when the room behind it is too small. */
bool make_room(struct waiting *waiting, size_t more) {
    size_t least = waiting->count + more, room = LEAST_ROOM;
    char *bytes;
    if (waiting->first + least <= waiting->room) return true;
    if (waiting->count > 0 && waiting->first > 0)
        memmove(waiting->bytes, waiting->bytes + waiting->first, waiting->count);
    waiting->first = 0;
    if (least <= waiting->room) return true;
    while (room < least) room *= 2;
    bytes = realloc(waiting->bytes, room);
    if (!bytes) return false;
    waiting->bytes = bytes;
    waiting->room = room;
    return true;
}

void add_waiting(struct waiting *waiting, const char *bytes, size_t count) {
    memcpy(waiting->bytes + waiting->first + waiting->count, bytes, count);
    waiting->count += count;
}

size_t look_at_waiting(const struct waiting *waiting, char *bytes, size_t count) {
    if (count > waiting->count) count = waiting->count;
    if (count > 0) memcpy(bytes, waiting->bytes + waiting->first, count);
    return count;
}

/* A room that was large is given back once nothing waits. */
void drop_waiting(struct waiting *waiting, size_t count) {
    waiting->first += count;
    waiting->count -= count;
    if (waiting->count > 0) return;
    waiting->first = 0;
    waiting->has_childs = false;
    if (waiting->room > LEAST_ROOM) end_waiting(waiting);
}

void end_waiting(struct waiting *waiting) {
    free(waiting->bytes);
    *waiting = (struct waiting){NULL, 0, 0, 0, false};
}
