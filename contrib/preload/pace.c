/* Time while a child lives. It is real for the child, so the program may not run ahead: a jump of the simulated clock
   takes as much real time as it is long. Only what passes while the program waits counts.

   What a child does leaves the clock where it is, if it comes quickly. What has passed is owed. If that is more than a
   tenth of a second, it is paid when a child does something or the wait ends: but not more than has passed in this wait,
   or a time that began with it would come too early. So no time of the program comes earlier than by the real clock,
   and none more than a tenth of a second later. A child that is never silent keeps no time from coming, and neither do
   signals. Where several threads wait, what has passed counts for each, as if its wait had begun with the first. */
#include "children.h"

#include <pthread.h>

enum { TENTH = SECOND / 10 };

static pthread_mutex_t lock = PTHREAD_MUTEX_INITIALIZER;
static uint64_t since; /* so much real time has passed since a wait began, the clock moved, or a child did something */
static uint64_t owed;  /* so much has passed in waits that the clock hasn't gone on by */

void begin_pace(void) {
    QUIET_WITHIN;
    pthread_mutex_lock(&lock);
    since = 0;
    pthread_mutex_unlock(&lock);
}

void pass_time(uint64_t units) {
    QUIET_WITHIN;
    pthread_mutex_lock(&lock);
    since += units;
    owed += units;
    pthread_mutex_unlock(&lock);
}

static void forget_time(void) {
    QUIET_WITHIN;
    pthread_mutex_lock(&lock);
    since = owed = 0;
    pthread_mutex_unlock(&lock);
}

static void pay(uint64_t real) {
    since = 0;
    owed = owed > real ? owed - real : 0;
}

bool may_go_to(uint64_t moment) {
    uint64_t slower, now, real;
    bool so;
    if (!has_children()) return true;
    if (!is_time_held()) {
        forget_time();
        return true;
    }
    slower = settings()->child_time;
    if (slower == 0) return false;
    QUIET_WITHIN;
    now = moment_now();
    real = moment > now ? (moment - now) * slower : 0;
    pthread_mutex_lock(&lock);
    so = since >= real;
    if (so) pay(real);
    pthread_mutex_unlock(&lock);
    return so;
}

/* Not to a moment at which something is to happen, for the child came first. */
void pay_at_answer(void) {
    uint64_t slower = settings()->child_time, now = moment_now(), to = now, next;
    QUIET_WITHIN;
    if (!is_time_held()) forget_time();
    pthread_mutex_lock(&lock);
    if (slower > 0 && owed >= TENTH * slower) to += since / slower;
    if (to > now && next_moment(&next) && next <= to) to = next > now ? next - 1 : now;
    pay((to - now) * slower);
    pthread_mutex_unlock(&lock);
    if (to > now) bring_clock_to(to);
}

/* A program that polls sees a millisecond pass for a millisecond of real time. */
bool may_take_a_while(void) {
    static _Atomic uint64_t last;
    uint64_t slower, now;
    if (!has_children() || !is_time_held()) return true;
    slower = settings()->child_time;
    now = real_moment();
    if (slower == 0 || now - atomic_load(&last) < MILLISECOND * slower) return false;
    atomic_store(&last, now);
    return true;
}
