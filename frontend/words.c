#include "words.h"

#include <stdarg.h>
#include <stdbool.h>

void words_clear(words *w) {
    w->length = 0;
    w->text[0] = '\0';
}

void say(words *w, const char *format, ...) {
    size_t room = sizeof w->text - w->length;
    va_list pieces;
    int wrote;

    va_start(pieces, format);
    wrote = vsnprintf(w->text + w->length, room, format, pieces);
    va_end(pieces);
    if (wrote > 0) w->length += (size_t)wrote < room ? (size_t)wrote : room - 1;
}

static bool is_printable(uint8_t byte) { return byte >= 32 && byte < 127; }

void say_bytes(words *w, const uint8_t *bytes, size_t length, size_t most) {
    size_t shown = length < most ? length : most;
    size_t i;

    for (i = 0; i < shown; i++) say(w, is_printable(bytes[i]) ? "%c" : "\\x%02x", bytes[i]);
    if (shown < length) say(w, "...");
}

void print_file(FILE *to, const char *name) {
    const unsigned char *byte;

    for (byte = (const unsigned char *)name; *byte != '\0'; byte++)
        fprintf(to, is_printable(*byte) || *byte >= 128 ? "%c" : "\\x%02x", *byte);
}

int say_next(words *w, size_t *listed) {
    if (*listed > 0) say(w, ", ");
    if (*listed == WORDS_LISTED) {
        say(w, "...");
        return 0;
    }
    *listed += 1;
    return 1;
}

void ranges_end(ranges *r) {
    if (r->count == 0) return;
    if (r->said.length > 0) say(&r->said, ", ");
    say(&r->said, "%zu", r->first);
    if (r->last == r->first + 1) say(&r->said, ", %zu", r->last);
    if (r->last > r->first + 1) say(&r->said, " to %zu", r->last);
}

void ranges_add(ranges *r, size_t number) {
    if (r->count == 0) {
        words_clear(&r->said);
        r->first = number;
    } else if (number != r->last + 1) {
        ranges_end(r);
        r->first = number;
    }
    r->last = number;
    r->count += 1;
}
