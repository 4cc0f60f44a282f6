/* Texts and lists that grow. */
#include "orders.h"

#include <errno.h>
#include <stdio.h>
#include <stdlib.h>
#include <string.h>

static int has_bytes(struct text *text, size_t more) {
    size_t room = text->room > 0 ? text->room : 256;
    char *bytes;
    if (text->lacks) return 0;
    while (room < text->length + more + 1) room *= 2;
    if (room == text->room) return 1;
    bytes = realloc(text->bytes, room);
    if (!bytes) {
        text->lacks = 1;
        return 0;
    }
    text->bytes = bytes;
    text->room = room;
    return 1;
}

void text_add(struct text *text, const char *format, ...) {
    va_list words;
    int more;
    va_start(words, format);
    more = vsnprintf(NULL, 0, format, words);
    va_end(words);
    if (more < 0 || !has_bytes(text, (size_t)more)) return;
    va_start(words, format);
    vsnprintf(text->bytes + text->length, (size_t)more + 1, format, words);
    va_end(words);
    text->length += (size_t)more;
}

void text_put(struct text *text, const void *bytes, size_t count) {
    if (!has_bytes(text, count)) return;
    memcpy(text->bytes + text->length, bytes, count);
    text->length += count;
    text->bytes[text->length] = 0;
}

void text_fill(struct text *text, size_t from, size_t columns) {
    while (!text->lacks && text->length - from < columns) text_add(text, " ");
}

void text_clear(struct text *text) {
    free(text->bytes);
    *text = (struct text){0};
}

char *text_take(struct text *text) {
    char *bytes;
    text_add(text, "%s", "");
    bytes = text->lacks ? NULL : text->bytes;
    if (!bytes) free(text->bytes);
    *text = (struct text){0};
    return bytes;
}

void text_number(struct text *text, uint64_t number) {
    char digits[32];
    int length = snprintf(digits, sizeof digits, "%llu", (unsigned long long)number);
    for (int i = 0; i < length; i++) text_add(text, "%s%c", i > 0 && (length - i) % 3 == 0 ? "," : "", digits[i]);
}

void text_count(struct text *text, uint64_t count, const char *word) {
    text_number(text, count);
    text_add(text, " %s%s", word, count == 1 ? "" : "s");
}

int has_place(void **list, size_t count, size_t *room, size_t size) {
    size_t more = *room > 0 ? 2 * *room : 16;
    void *block;
    if (count < *room) return 1;
    block = realloc(*list, more * size);
    if (!block) return 0;
    *list = block;
    *room = more;
    return 1;
}

uint64_t hash_of(const void *bytes, size_t count) {
    const uint8_t *all = bytes;
    uint64_t hash = UINT64_C(0xcbf29ce484222325); /* FNV-1a */
    for (size_t i = 0; i < count; i++) hash = (hash ^ all[i]) * UINT64_C(0x100000001b3);
    return hash;
}

int turns_put(struct turns_made *turns, int who) {
    if (!has_place((void **)&turns->all, turns->count, &turns->room, sizeof *turns->all)) return -ENOMEM;
    turns->all[turns->count++] = (uint8_t)who;
    return 0;
}

int turns_copy(struct turns_made *to, const uint8_t *from, size_t count) {
    if (count > to->room) {
        uint8_t *more = realloc(to->all, count);
        if (!more) return -ENOMEM;
        to->all = more;
        to->room = count;
    }
    if (count > 0) memcpy(to->all, from, count);
    to->count = count;
    return 0;
}
