#include "facts.h"

#include <stdlib.h>
#include <string.h>

/* Above every atom, and far below the largest number. */
#define FACT_MOST 10000000u

static bool is_blank(uint8_t byte) { return byte == ' ' || byte == '\t' || byte == '\r'; }

static size_t skip_blanks(const uint8_t *text, size_t at, size_t end) {
    while (at < end && is_blank(text[at])) at++;
    return at;
}

static size_t skip_name(const uint8_t *text, size_t at, size_t end) {
    while (at < end && !is_blank(text[at])) at++;
    return at;
}

/* "open: a pilot pressed accept", or only the word open. */
static bool says_open(const uint8_t *text, size_t length) {
    return length >= 4 && memcmp(text, "open", 4) == 0 && (length == 4 || text[4] == ':' || is_blank(text[4]));
}

/* Reads one line. False for all lines but those with a number, blanks and a name. */
static bool read_fact(fact *f, const uint8_t *text, size_t end) {
    size_t at = skip_blanks(text, 0, end);
    size_t start = at;

    memset(f, 0, sizeof *f);
    for (; at < end && text[at] >= '0' && text[at] <= '9'; at++)
        if (f->number < FACT_MOST) f->number = f->number * 10 + (uint32_t)(text[at] - '0');
    if (at == start || at == end || !is_blank(text[at])) return false;
    at = skip_blanks(text, at, end);
    start = at;
    at = skip_name(text, at, end);
    if (at == start) return false;
    f->name_length = at - start < FACT_NAME ? at - start : FACT_NAME;
    memcpy(f->name, text + start, f->name_length);
    at = skip_blanks(text, at, end);
    f->open = says_open(text + at, end - at);
    return true;
}

static bool add_fact(facts *f, fact *read) {
    if (f->count == f->room) {
        size_t room = f->room == 0 ? 64 : 2 * f->room;
        fact *list = realloc(f->list, room * sizeof *list);

        if (list == NULL) return false;
        f->list = list;
        f->room = room;
    }
    if (read->number < BATTENPLUM_ATOMS) {
        read->again = f->place[read->number] != 0;
        if (!read->again) f->place[read->number] = f->count + 1;
    }
    f->list[f->count++] = *read;
    return true;
}

bool facts_read(facts *f, const uint8_t *text, size_t length) {
    size_t line = 1;
    size_t at;
    fact read;

    for (at = 0; at < length; line++) {
        const uint8_t *found = memchr(text + at, '\n', length - at);
        size_t end = found == NULL ? length : (size_t)(found - text);

        if (read_fact(&read, text + at, end - at)) {
            read.line = line;
            if (!add_fact(f, &read)) return false;
        }
        at = end + 1;
    }
    return true;
}

const fact *fact_of(const facts *f, size_t atom) {
    if (atom >= BATTENPLUM_ATOMS || f->place[atom] == 0) return NULL;
    return &f->list[f->place[atom] - 1];
}

static bool is_named(const fact *f, const uint8_t *name, size_t length) {
    return f->number < BATTENPLUM_ATOMS && !f->again && f->name_length == length && memcmp(f->name, name, length) == 0;
}

const fact *fact_named(const facts *f, const uint8_t *name, size_t length, bool *only) {
    const fact *found = NULL;
    size_t i;

    *only = true;
    /* Of longer names only the beginning is kept. */
    if (length >= FACT_NAME) return NULL;
    for (i = 0; i < f->count; i++) {
        if (!is_named(&f->list[i], name, length)) continue;
        if (found == NULL) found = &f->list[i];
        else *only = false;
    }
    return found;
}

void say_name(words *w, const facts *f, size_t atom) {
    const fact *found = fact_of(f, atom);

    if (found == NULL) return;
    say(w, " (");
    say_bytes(w, found->name, found->name_length, WORDS_QUOTED);
    say(w, ")");
}

void say_atom(words *w, const facts *f, size_t atom) {
    say(w, "atom %zu", atom);
    say_name(w, f, atom);
}
