/* A schedule: who goes, turn by turn, as a short text. `boss*2 w0*7 + w1*2`: boss goes twice, then w0 seven times, then
 * the clock, then w1 twice. `..` at the end leaves the rest open. The package for Python has the same form. A turn may
 * one day say in brackets which registrations its wait reports; this version refuses that. */
#include "orders.h"

#include <errno.h>
#include <stdlib.h>
#include <string.h>

/* No schedule has more turns. */
#define MOST_TURNS 10000000ULL

static int is_letter(char c) { return (c >= 'a' && c <= 'z') || (c >= 'A' && c <= 'Z') || c == '_'; }
static int is_digit(char c) { return c >= '0' && c <= '9'; }
static int is_blank(char c) { return c == ' ' || (c >= '\t' && c <= '\r'); }

/* How many characters of a name are at the beginning. */
static size_t name_length(const char *word, size_t length) {
    size_t count = 0;
    if (length == 0 || !is_letter(word[0])) return 0;
    while (count < length && (is_letter(word[count]) || is_digit(word[count]) || word[count] == '.' || word[count] == '-'))
        count++;
    return count;
}

int is_name(const char *name, size_t length) { return length > 0 && name_length(name, length) == length; }

size_t count_switches(const uint8_t *turns, size_t count) {
    size_t found = 0;
    for (size_t i = 1; i < count; i++) found += turns[i] != turns[i - 1];
    return found;
}

void text_schedule(struct text *text, const struct names *names, const uint8_t *turns, size_t count, int is_open) {
    const char *between = "";
    for (size_t i = 0; i < count;) {
        size_t next = i;
        while (next < count && turns[next] == turns[i]) next++;
        text_add(text, "%s%s", between, name_of(names, turns[i]));
        if (next - i > 1) text_add(text, "*%zu", next - i);
        between = " ";
        i = next;
    }
    if (is_open) text_add(text, "%s..", between);
}

/* A word of a schedule: its place from 1, and where it stands. */
struct word {
    int place;
    const char *start;
    size_t length;
};

static int next_word(struct word *word) {
    const char *at = word->start + word->length;
    while (is_blank(*at)) at++;
    word->start = at;
    word->length = 0;
    while (at[word->length] != 0 && !is_blank(at[word->length])) word->length++;
    word->place++;
    return word->length > 0;
}

static int is_last(struct word word) { return !next_word(&word); }

static int say(struct text *wrong, const char *text, const struct word *word, const char *what) {
    text_add(wrong, "word %d of the schedule '%s' is '%.*s'%s", word->place, text, (int)word->length, word->start, what);
    return -EINVAL;
}

static int no_turns(struct text *wrong, const char *text, const struct word *word) {
    if (memchr(word->start, '[', word->length) || memchr(word->start, ']', word->length))
        return say(wrong, text, word, ", and what a wait reports can't be chosen in this version");
    if (word->length == 2 && memcmp(word->start, "..", 2) == 0)
        return say(wrong, text, word, ", which stands at the end only");
    return say(wrong, text, word,
               ", and no turns of a task: those are a name, or a name and how often, as loop*3, or +");
}

/* How often, behind the name: digits behind a star, or nothing. 0 if it is no number of turns. */
static uint64_t how_often(const char *rest, size_t length) {
    uint64_t count = 0;
    if (length == 0) return 1;
    if (length < 2 || rest[0] != '*') return 0;
    for (size_t i = 1; i < length; i++) {
        if (!is_digit(rest[i])) return 0;
        count = count > MOST_TURNS ? count : count * 10 + (uint64_t)(rest[i] - '0');
    }
    return count;
}

static int number_of(const struct names *names, const char *name, size_t length) {
    if (length == 1 && name[0] == '+') return names->count;
    for (int i = 0; i < names->count; i++)
        if (strlen(names->all[i]) == length && memcmp(names->all[i], name, length) == 0) return i;
    return NOBODY;
}

static int unknown(struct text *wrong, const char *text, const struct word *word, size_t length, const struct names *names) {
    text_add(wrong, "word %d of the schedule '%s' names '%.*s', and the tasks are ", word->place, text, (int)length,
             word->start);
    for (int i = 0; i < names->count; i++) text_add(wrong, "%s%s", i > 0 ? ", " : "", names->all[i]);
    return -EINVAL;
}

static int read_word(struct schedule *schedule, const char *text, const struct word *word, const struct names *names,
                     struct text *wrong) {
    size_t length = word->start[0] == '+' ? 1 : name_length(word->start, word->length);
    const char *rest = word->start + length;
    size_t rest_length = word->length - length;
    int number = number_of(names, word->start, length), is_count;
    uint64_t count;
    is_count = rest_length == 0 || (rest_length > 1 && rest[0] == '*' && strspn(rest + 1, "0123456789") >= rest_length - 1);
    if (length == 0 || !is_count) return no_turns(wrong, text, word);
    if (number == NOBODY) return unknown(wrong, text, word, length, names);
    count = how_often(rest, rest_length);
    if (count < 1 || count > MOST_TURNS - schedule->turns.count) {
        text_add(wrong, "word %d of the schedule '%s' has no number of turns: it has 1 to %llu", word->place, text,
                 MOST_TURNS);
        return -EINVAL;
    }
    for (; count > 0; count--)
        if (turns_put(&schedule->turns, number) < 0) return -ENOMEM;
    return 0;
}

int schedule_read(struct schedule *schedule, const char *text, const struct names *names, struct text *wrong) {
    struct word word = {0, text, 0};
    *schedule = (struct schedule){0};
    while (next_word(&word)) {
        int status;
        schedule->is_open = word.length == 2 && memcmp(word.start, "..", 2) == 0 && is_last(word);
        if (schedule->is_open) return 0;
        status = read_word(schedule, text, &word, names, wrong);
        if (status < 0) return status;
    }
    if (schedule->turns.count > 0) return 0;
    text_add(wrong, "the schedule '%s' has no turns", text);
    return -EINVAL;
}
