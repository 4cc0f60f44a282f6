/* What children do to their pipes and sockets is done in the simulated kernel, and what the program does is passed on
   to them. Bytes are moved when the program waits and when it looks, never beside it.

   Bytes for a child are shown to it: they lie in its real pipe, and stay in the simulated one until the child has taken
   them. So a writer sees them as long as they wait, and a reader in the program can still claim them.

   What was closed is passed on before bytes are: a child that writes where nobody reads any more has to hear of it. */
#include "children.h"

#include <linux/sockios.h>
#include <stdio.h>
#include <stdlib.h>
#include <sys/ioctl.h>
#include <sys/socket.h>

FORWARD(nanosleep)

static atomic_int shown_ends; /* so many have been shown bytes that they haven't taken */

/* So much is shown at once: a page to a pipe, which has room for no more. */
enum { AT_ONCE = 16384 };

/* ---- bytes of a child ---- */

/* So much of them has room in the simulated kernel, at most a page; 0 if a page hasn't. So a write of a page that a
   child makes isn't mixed with another one's. */
static size_t room_for(const struct end *end) {
    const struct nippersage_limits *limits = &settings()->limits;
    size_t most = end->is_socket ? limits->sock_bytes : limits->pipe_bytes, part = most < PAGE ? most : PAGE;
    const struct description *to = end->description->peer;
    return to && to->waiting.count + part <= most ? part : 0;
}

static void put_in(struct end *end, const char *bytes, size_t count) {
    struct waiting *waiting = &end->description->peer->waiting;
    ssize_t taken = nippersage_write(acting(end->process), end->number, bytes, count);
    if (taken > 0) add_waiting(waiting, bytes, (size_t)taken);
    if (taken > 0) waiting->has_childs = true;
    log_child(end->pid, taken, "write(%d, %s, %zu)", end->number + FIRST, bytes_text(TEXT, bytes, (ssize_t)count),
              count);
    end->moved = real_moment();
}

static short revents_of(const struct end *end) {
    struct pollfd file = {end->real, POLLIN | POLLOUT, 0};
    static const struct timespec none;
    return RAW(SYS_ppoll, &file, 1, &none, NULL, 8) > 0 ? file.revents : 0;
}

/* Whether anything came. */
static bool drain(struct end *end) {
    char bytes[PAGE];
    size_t room;
    bool has_come = false;
    while (end->gives && !end->is_over && (room = room_for(end)) > 0) {
        long got = -ENOMEM;
        if (make_room(&end->description->peer->waiting, room)) got = RAW(SYS_read, end->real, bytes, room);
        if (got == -EAGAIN || got == -EINTR || got == -ENOMEM) break;
        if (got > 0) put_in(end, bytes, (size_t)got);
        end->is_over = got <= 0;
        end->is_reset = got < 0;
        has_come = true;
    }
    return has_come;
}

/* Nothing more comes of a child. One that has only shut its socket goes on reading there. */
static void end_of_bytes(struct end *end) {
    bool is_closed = !end->is_socket || end->is_reset || (revents_of(end) & (POLLHUP | POLLERR));
    if (is_closed && !is_named(end->description)) note_closing(end->process);
    end->gives = end->is_over = false;
    if (is_closed || !end->takes) {
        end_end_of_child(end);
        return;
    }
    end->description->is_shut = true;
    nippersage_shutdown(acting(end->process), end->number, SHUT_WR);
    log_child(end->pid, 0, "shutdown(%d, SHUT_WR)", end->number + FIRST);
}

/* ---- bytes for a child ---- */

/* The child has read so many of those that it was shown. */
static void take_as_child(struct end *end, size_t count) {
    char bytes[PAGE];
    while (count > 0) {
        ssize_t got = nippersage_read(acting(end->process), end->number, bytes, count < PAGE ? count : PAGE);
        if (got <= 0) break;
        log_child(end->pid, got, "read(%d, %s, %zd)", end->number + FIRST, bytes_text(TEXT, bytes, got), got);
        drop_waiting(&end->description->waiting, (size_t)got);
        count -= (size_t)got;
    }
}

void show_no_more(struct end *end) {
    if (end->shown == 0) return;
    end->shown = 0;
    end->description->shown--;
    atomic_fetch_sub(&shown_ends, 1);
}

/* How many bytes of those that were shown the child hasn't read. A socket only tells whether there are any. */
static size_t unread_of(const struct end *end) {
    int unread = 0;
    RAW(SYS_ioctl, end->real, end->is_socket ? SIOCOUTQ : FIONREAD, &unread);
    if (unread <= 0) return 0;
    return end->is_socket || (size_t)unread > end->shown ? end->shown : (size_t)unread;
}

/* A socket whose bytes the program itself asks for is the program's, as long as it is open there. So is one to which a
   child has written, for children have copies of ends that they never read, as those of workers that were made before
   them. One that an instance only asks for is shown all the same if it can be taken back. */
static bool is_programs(const struct end *end) {
    const struct description *description = end->description;
    if (!is_named(description)) return false;
    if (description->is_read_here || description->waiting.has_childs) return true;
    return description->is_watched && end->kept < 0;
}

/* If there are two real sockets, since the first one couldn't be shared any more, the first one gets the bytes. */
static bool may_be_shown(const struct end *end) {
    if (!end->is_socket) return true;
    return !is_programs(end) && find_end(all_ends, end->description) == end;
}

/* A child that is about to run a program holds the readers of its own pipes for a moment, until it closes them. Bytes
   that it was shown before could come back through a pipe that nobody else reads any more, without a word that it is
   broken. So such a child is shown none yet. */
static bool awaits_closing(const struct end *shown) {
    enum { A_MOMENT = 100 * MILLISECOND };
    bool is_young = real_moment() - shown->made < A_MOMENT;
    for (const struct end *end = all_ends; end; end = end->next) {
        if (!end->description || !end->gives || end->process != shown->process) continue;
        if (!end->description->peer || (is_young && !is_named(end->description->peer))) return true;
    }
    return false;
}

static bool show(struct end *end) {
    char bytes[AT_ONCE];
    size_t count = look_at_waiting(&end->description->waiting, bytes, end->is_socket ? AT_ONCE : PAGE);
    long taken;
    if (!may_be_shown(end) || awaits_closing(end)) return false;
    taken = end->is_socket ? RAW(SYS_sendto, end->real, bytes, count, MSG_DONTWAIT | MSG_NOSIGNAL, NULL, 0)
                           : write_quietly(end->real, bytes, count);
    if (taken <= 0) return false;
    end->shown = (size_t)taken;
    end->description->shown++;
    atomic_fetch_add(&shown_ends, 1);
    return true;
}

/* Nobody writes to the child any more, and it has taken all. */
static void pass_end_on(struct end *end) {
    end->takes = false;
    if (end->is_socket && end->gives) {
        RAW(SYS_shutdown, end->real, SHUT_WR);
    } else {
        end_end_of_child(end);
    }
}

static bool has_writer(const struct end *end) {
    const struct description *peer = end->description->peer;
    return peer && !peer->is_shut;
}

/* The child reads no more. A socket that it still writes to is shut for the program's writing. */
static void end_of_reading(struct end *end, short revents) {
    struct description *peer = end->description->peer;
    int number = peer ? number_of(peer) : -1;
    if (!end->is_socket || !(revents & POLLERR)) take_as_child(end, end->shown - unread_of(end));
    show_no_more(end);
    end->takes = false;
    if (!end->is_socket || !end->gives || (revents & POLLHUP)) {
        end_end_of_child(end);
        return;
    }
    if (number >= 0) nippersage_shutdown(acting(1), number, SHUT_WR);
    if (peer) peer->is_shut = true;
}

/* Whether the child has read all that it was shown. A socket that was closed with some unread tells an error: those are
   the program's again. */
static bool take_shown(struct end *end) {
    if (end->shown == 0 || unread_of(end) > 0) return false;
    if (!end->is_socket || !(revents_of(end) & POLLERR)) take_as_child(end, end->shown);
    show_no_more(end);
    return true;
}

/* A child may tell by memory that it shares, or by a file, what it has taken. */
void note_taken(void) {
    if (atomic_load(&shown_ends) == 0) return;
    QUIET;
    lock_table();
    for (struct end *end = all_ends; end; end = end->next)
        if (end->description) take_shown(end);
    unlock_table();
}

/* Shows what waits, or that no more will come. Whether a child has already taken some. */
static bool feed(struct end *end) {
    bool has_taken = false;
    while (end->description && end->takes) {
        has_taken |= take_shown(end);
        if (end->shown > 0) break;
        if (end->description->waiting.count == 0) {
            if (!has_writer(end)) pass_end_on(end);
            break;
        }
        if (!show(end)) break;
    }
    return has_taken;
}

/* ---- what a child has closed ---- */

/* A pipe, and nothing waits in it. */
static bool is_closed_pipe(const struct end *end, short revents) {
    if (end->is_socket) return false;
    return end->takes ? revents & POLLERR : (revents & (POLLHUP | POLLIN)) == POLLHUP;
}

static bool note_closed(struct end *end, short revents) {
    bool is_closed = is_closed_pipe(end, revents), is_deaf = end->is_socket && !end->gives && (revents & POLLHUP);
    if (end->gives && (end->is_over || is_closed)) {
        end_of_bytes(end);
    } else if (end->takes && (is_closed || is_deaf)) {
        end_of_reading(end, revents);
    } else {
        return false;
    }
    return true;
}

/* A copy of what the program has, too: a child closes it at its beginning. */
static bool note_closed_copy(struct end *end, short revents) {
    return is_closed_pipe(end, revents) && is_named(end->description) && note_closed(end, revents);
}

/* ---- what the program itself reads ---- */

/* The other side of a real pipe, or the children's socket. What is in one that isn't kept is the children's. */
static long open_other_side(const struct end *end) {
    char path[40];
    if (end->is_socket) return end->kept;
    snprintf(path, sizeof path, "/proc/self/fd/%d", end->real);
    return RAW(SYS_openat, AT_FDCWD, path, O_RDONLY | O_NONBLOCK | O_CLOEXEC, 0);
}

/* What was shown to a child is taken back, but for what it has read meanwhile. */
static void take_back(struct end *end) {
    char bytes[PAGE];
    long fd, got;
    size_t left = 0;
    if (take_shown(end)) return;
    fd = open_other_side(end);
    while (fd >= 0 && left < end->shown) {
        got = end->is_socket ? RAW(SYS_recvfrom, fd, bytes, sizeof bytes, MSG_DONTWAIT, NULL, NULL)
                             : RAW(SYS_read, fd, bytes, sizeof bytes);
        if (got <= 0) break;
        left += (size_t)got;
    }
    if (fd >= 0 && fd != end->kept) RAW(SYS_close, fd);
    take_as_child(end, end->shown - left);
    show_no_more(end);
}

void claim_shown(struct description *description) {
    for (struct end *end = all_ends; end && description->shown > 0; end = end->next)
        if (end->description == description && end->shown > 0) take_back(end);
}

/* ---- all of them ---- */

/* What the program has closed, or shut. */
static bool pass_closing_on(struct end *end) {
    if (!end->gives || (end->description->peer && !end->description->is_shut)) return false;
    end->gives = false;
    if (end->is_socket && end->takes) {
        RAW(SYS_shutdown, end->real, SHUT_RD);
    } else {
        end_end_of_child(end);
    }
    return true;
}

/* A socket that the program has, too, and all children that inherited it have ended. What they haven't read is the
   program's. If a child of theirs still has the real one, it goes on. */
static bool note_deserted(struct end *end) {
    short revents;
    if (end->kept < 0 || lives_or_later(end->process)) return false;
    if (end->shown > 0) take_back(end);
    let_kept_go(end);
    revents = revents_of(end);
    if (!(revents & POLLHUP)) return true;
    drain(end);
    note_closed(end, revents);
    return true;
}

/* What is asked of a real end. Whoever sleeps meanwhile doesn't ask for what it can't move. */
static struct pollfd file_of(const struct end *end, bool sleeps) {
    struct pollfd file = {end->real, end->gives ? POLLIN : 0, 0};
    if (end->shown > 0 && !end->is_socket) file.events |= POLLOUT;
    if (sleeps && end->gives && room_for(end) == 0) file.fd = -1;
    return file;
}

/* What is looked at in the real kernel, one after the other: pidfds, children, and ends, the last one first. So if the
   end of a child is seen, all that it wrote is. */
struct glance {
    struct pollfd *files, *children, *ends, *last; /* NULL without memory */
};

static struct glance fill(bool sleeps) {
    struct glance glance;
    glance.files = malloc(((size_t)atomic_load(&living) + 1) * sizeof *glance.files);
    glance.last = glance.ends = glance.children = glance.files;
    if (!glance.files) return glance;
    glance.children += fill_pidfds(glance.files);
    glance.ends = glance.children + fill_children(glance.children);
    glance.last = glance.ends;
    for (struct end *end = all_ends; end; end = end->next, glance.last++)
        if (end->description && !is_named(end->description)) let_kept_go(end);
    struct pollfd *file = glance.last;
    for (const struct end *end = all_ends; end; end = end->next) *--file = file_of(end, sleeps);
    return glance;
}

static long ask(const struct glance *glance, const struct timespec *most) {
    return RAW(SYS_ppoll, glance->files, glance->last - glance->files, most, NULL, 8);
}

static bool shows_closing(const struct glance *glance) {
    const struct pollfd *file = glance->last;
    for (const struct end *end = all_ends; end && file--; end = end->next)
        if (is_closed_pipe(end, file->revents)) return true;
    return false;
}

/* What a child closes at once, by an exec or its end, is closed one by one by the real kernel. So if anything is, it is
   asked once more a little later. */
static bool ask_now(const struct glance *glance) {
    static const struct timespec none, a_little = {0, 100000};
    if (ask(glance, &none) < 0) return false;
    if (!shows_closing(glance)) return true;
    RAW(SYS_nanosleep, &a_little, NULL);
    return ask(glance, &none) >= 0;
}

/* In an order in which they can have come, so that the history is the same if they are seen one by one or at once. A
   child closes its copies first. It reads before it answers, and closes what it used at its end. */
static bool move_ends(const struct glance *glance) {
    const struct pollfd *file;
    bool has_moved = false;
#define FOR_ALL_ENDS  \
    file = glance->last; \
    for (struct end *end = all_ends; end && file--; end = end->next) if (end->description)
    FOR_ALL_ENDS has_moved |= pass_closing_on(end);
    FOR_ALL_ENDS has_moved |= note_closed_copy(end, file->revents);
    FOR_ALL_ENDS has_moved |= take_shown(end);
    FOR_ALL_ENDS if (file->revents) has_moved |= drain(end);
    FOR_ALL_ENDS has_moved |= note_closed(end, file->revents);
    FOR_ALL_ENDS has_moved |= note_deserted(end);
    FOR_ALL_ENDS has_moved |= feed(end);
    return has_moved;
}

static bool note_all_deserted(void) {
    bool has_moved = false;
    for (struct end *end = all_ends; end; end = end->next)
        if (end->description) has_moved |= note_deserted(end);
    return has_moved;
}

static void forget_ends(void) {
    struct end **link = &all_ends, *end;
    while ((end = *link))
        if (end->description) {
            link = &end->next;
        } else {
            *link = end->next;
            free(end);
            atomic_fetch_sub(&living, 1);
        }
}

bool move_bytes(void) {
    int saved = errno;
    bool has_moved = false;
    struct glance glance;
    if (!has_children()) return false;
    QUIET;
    lock_table();
    glance = fill(false);
    if (glance.files && ask_now(&glance)) {
        has_moved = move_ends(&glance);
        forget_ends();
        has_moved |= look_at_children(glance.children);
        has_moved |= note_all_deserted();
        forget_ends();
        has_moved |= ring_pidfds(glance.files);
    }
    free(glance.files);
    unlock_table();
    errno = saved;
    return has_moved;
}

/* ---- when they are moved ---- */

/* So many answers in a row have told the program that there is nothing, or so many waits didn't sleep. */
enum { MOST_IDLE = 10, MOST_BUSY = 16 };
static atomic_int idle, busy;

bool move_in_wait(void) {
    atomic_store(&idle, 0);
    atomic_store(&busy, 0);
    if (!move_bytes()) return false;
    if (await_end()) move_bytes();
    pay_at_answer();
    return true;
}

/* A program that never waits is to hear of its children, too. It is a little slower than the real clock then. */
bool look_for_nothing(void) {
    static const struct timespec a_while = {0, 1000000};
    bool has_moved;
    if (atomic_fetch_add(&idle, 1) < MOST_IDLE) return false;
    has_moved = move_bytes();
    if (!has_moved) sleep_with_children(&a_while);
    return !move_bytes() && !has_moved;
}

void look_if_busy(void) {
    if (atomic_fetch_add(&busy, 1) >= MOST_BUSY) move_bytes();
}

/* ---- the end of the program ---- */

/* A real pipe gets the room for all, since nobody moves bytes any more. */
static void hand_all_over(struct end *end) {
    const struct waiting *waiting = &end->description->waiting;
    const char *bytes = waiting->bytes + waiting->first + end->shown;
    size_t left = waiting->count > end->shown ? waiting->count - end->shown : 0;
    if (!end->is_socket) RAW(SYS_fcntl, end->real, F_SETPIPE_SZ, left + 2 * PAGE);
    while (left > 0) {
        long taken = end->is_socket ? RAW(SYS_sendto, end->real, bytes, left, MSG_DONTWAIT | MSG_NOSIGNAL, NULL, 0)
                                    : write_quietly(end->real, bytes, left);
        if (taken <= 0) return;
        bytes += taken;
        left -= (size_t)taken;
    }
}

void hand_over(void) {
    if (!has_children()) return;
    QUIET;
    if (!try_lock_table()) return;
    for (struct end *end = all_ends; end; end = end->next)
        if (end->takes && end->description->waiting.count > 0 && may_be_shown(end)) hand_all_over(end);
    unlock_table();
}

/* ---- sleeping ---- */

/* Handlers of signals may run meanwhile. */
static void sleep_in_real(const struct timespec *most) {
    struct glance glance;
    {
        QUIET_WITHIN;
        lock_table();
        glance = fill(true);
        unlock_table();
    }
    ask(&glance, most);
    free(glance.files);
}

void sleep_with_children(const struct timespec *most) {
    uint64_t began = real_moment();
    sleep_in_real(most);
    pass_time(real_moment() - began);
}

static void move_until(uint64_t end) {
    uint64_t now;
    while ((now = real_moment()) < end) {
        struct timespec left = timespec_of(end - now);
        if (!is_partly_asleep() && !is_anyone_reaping()) {
            next_nanosleep()(&left, NULL);
            return;
        }
        sleep_in_real(&left);
        if (move_bytes()) pay_at_answer();
    }
}

/* What passes while it computes isn't counted, but what it waits for a processor is. */
bool spend_a_turn(const struct timespec *turn, uint64_t *passed) {
    static uint64_t last, computed;
    uint64_t before = last - computed;
    bool is_first = last == 0;
    last = *passed = 0;
    if (!has_children()) return false;
    move_until(real_moment() + (uint64_t)units_of(turn));
    last = real_moment();
    computed = computed_until_now();
    *passed = is_first || last - computed < before ? 0 : last - computed - before;
    return true;
}
