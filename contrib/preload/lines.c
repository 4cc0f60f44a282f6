/* The lines of what is refused. A program may make a refused call a thousand times: it is told once for each call and
   place, which is the address of the caller. At the end it is told how often the call came again. */
#include "preload.h"

#include <stdarg.h>
#include <stdio.h>
#include <unwind.h>

enum { MOST_REFUSALS = 512, MOST_TEXT = 240 };

static struct refusal {
    _Atomic uint64_t key; /* of the call and its place; 0 where there is none */
    atomic_ulong again;   /* so often it came after the first time */
    char text[MOST_TEXT];
} refusals[MOST_REFUSALS];
static struct refusal *_Atomic told[MOST_REFUSALS]; /* in the order of their lines */
static atomic_ulong told_count, untold;             /* the last of these for want of room */

_Thread_local uintptr_t place_at_door;

/* ---- the place ---- */

/* The bounds of the shim's own instructions, by the linker. */
extern const char __ehdr_start[] __attribute__((visibility("hidden")));
extern const char etext[] __attribute__((visibility("hidden")));

static _Unwind_Reason_Code leave_shim(struct _Unwind_Context *frame, void *found) {
    uintptr_t place = _Unwind_GetIP(frame);
    *(uintptr_t *)found = place;
    return place >= (uintptr_t)__ehdr_start && place < (uintptr_t)etext ? _URC_NO_REASON : _URC_END_OF_STACK;
}

/* From where the program called the shim. */
static uintptr_t find_place(void) {
    uintptr_t place = place_at_door;
    if (place == 0) _Unwind_Backtrace(leave_shim, &place);
    return place;
}

/* ---- the refusals ---- */

static uint64_t mix(uint64_t key, uint64_t more) { return (key ^ more) * UINT64_C(0x9e3779b97f4a7c15); }

/* One call has one form of line, and begins it with its name. */
static uint64_t key_of(uintptr_t place, long number, const char *format, const char *text) {
    uint64_t key = mix(mix(mix(1, place), (uintptr_t)format), (uint64_t)number);
    for (; (*text >= 'a' && *text <= 'z') || (*text >= '0' && *text <= '9') || *text == '_'; text++)
        key = mix(key, (unsigned char)*text);
    return key == 0 ? 1 : key;
}

/* The entry of a key, and whether it is new. NULL for want of room. No lock is taken: a handler may refuse, too. */
static struct refusal *find(uint64_t key, bool *is_new) {
    for (uint64_t i = 0; i < MOST_REFUSALS; i++) {
        struct refusal *refusal = &refusals[((key >> 32) + i) % MOST_REFUSALS];
        uint64_t other = 0;
        *is_new = atomic_compare_exchange_strong(&refusal->key, &other, key);
        if (*is_new || other == key) return refusal;
    }
    return NULL;
}

static void tell(long number, const char *format, va_list arguments) {
    char text[MOST_TEXT];
    struct refusal *refusal;
    bool is_new = false;
    vsnprintf(text, sizeof text, format, arguments);
    refusal = find(key_of(find_place(), number, format, text), &is_new);
    if (!refusal) {
        atomic_fetch_add(&untold, 1);
    } else if (is_new) {
        memcpy(refusal->text, text, sizeof text);
        atomic_store(&told[atomic_fetch_add(&told_count, 1)], refusal);
        say("%s", text);
    } else {
        atomic_fetch_add(&refusal->again, 1);
    }
}

int refuse(int error, const char *format, ...) {
    va_list arguments;
    va_start(arguments, format);
    tell(0, format, arguments);
    va_end(arguments);
    errno = error;
    return -1;
}

int refuse_number(long number, const char *format, ...) {
    va_list arguments;
    va_start(arguments, format);
    tell(number, format, arguments);
    va_end(arguments);
    errno = ENOSYS;
    return -1;
}

void tell_what_came_again(void) {
    unsigned long more = atomic_exchange(&untold, 0);
    for (size_t i = 0; i < MOST_REFUSALS; i++) {
        struct refusal *refusal = atomic_load(&told[i]);
        unsigned long again = refusal ? atomic_exchange(&refusal->again, 0) : 0;
        if (again > 0) say("%lu more of: %s", again, refusal->text);
    }
    if (more > 0) say("%lu more refusals from other places", more);
}
