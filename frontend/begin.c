/* How a line begins and how it ends: its bracket and word, what stands after the form, and a form that breaks off. */
#include "spot.h"

#include <string.h>

#define WORD_MOST 12

/* How many letters must be put in, left out or changed to make one word of another. */
static size_t distance(const char *from, const char *to) {
    size_t row[WORD_MOST + 1];
    size_t i, j;

    for (j = 0; j <= strlen(to); j++) row[j] = j;
    for (i = 1; i <= strlen(from); i++) {
        size_t corner = row[0];

        row[0] = i;
        for (j = 1; j <= strlen(to); j++) {
            size_t best = corner + (from[i - 1] != to[j - 1]);

            if (row[j] + 1 < best) best = row[j] + 1;
            if (row[j - 1] + 1 < best) best = row[j - 1] + 1;
            corner = row[j];
            row[j] = best;
        }
    }
    return row[strlen(to)];
}

/* The kind whose word is nearest, if it is near. */
static enum kind nearest(const char *word) {
    enum kind found = KIND_NONE;
    size_t least = 3;
    enum kind kind;

    for (kind = KIND_ATOMS; kind < KINDS; kind++) {
        size_t apart = distance(word, kinds[kind].word);

        if (apart < least) {
            least = apart;
            found = kind;
        }
    }
    return found;
}

/* The letters from an offset, made small. False if there are none or too many for any word. */
static bool small_word(const line *l, size_t at, char *word, bool *capitals) {
    size_t i;

    *capitals = false;
    for (i = 0; is_letter(byte_at(l, at + i)); i++) {
        int byte = byte_at(l, at + i);

        if (i == WORD_MOST) return false;
        if (is_capital(byte)) *capitals = true;
        word[i] = (char)(is_capital(byte) ? byte - 'A' + 'a' : byte);
    }
    word[i] = '\0';
    return i > 0;
}

/* Whether the rest of the line, which may be empty, is how `whole` begins. */
static bool may_become(const line *l, size_t at, const char *whole) {
    size_t length = l->length - at;

    return length < strlen(whole) && memcmp(l->bytes + at, whole, length) == 0;
}

/* The kind that a word may become, if there is only one. Sets `any` if there is one or more. */
static enum kind kind_begun(const line *l, size_t at, bool *any) {
    enum kind found = KIND_NONE;
    enum kind kind;

    *any = false;
    for (kind = KIND_ATOMS; kind < KINDS; kind++) {
        if (!may_become(l, at, kinds[kind].word)) continue;
        found = *any ? KIND_NONE : kind;
        *any = true;
    }
    return found;
}

/* Words that are nearer to a form than their letters: what a defined line does is called declaring. */
static enum kind kind_called(const char *word) {
    return strcmp(word, "declare") == 0 || strcmp(word, "declared") == 0 ? KIND_DEFINED : KIND_NONE;
}

/* The kind that is meant by a word that is none: by what it is called, by how its word begins, or by the nearest word. */
static enum kind kind_meant(const char *word) {
    line whole = {(const uint8_t *)word, strlen(word), true};
    enum kind kind = kind_called(word);
    bool any;

    if (kind == KIND_NONE) kind = kind_begun(&whole, 0, &any);
    return kind != KIND_NONE ? kind : nearest(word);
}

static void say_unknown_word(spot *s) {
    char word[WORD_MOST + 1];
    bool capitals;
    enum kind kind = KIND_NONE;

    if (small_word(s->line, 1, word, &capitals)) {
        kind = kind_of_word((const uint8_t *)word, strlen(word));
        if (kind != KIND_NONE && capitals) {
            say_piece(s, 1);
            say(s->said, " has capital letters; the word is %s", kinds[kind].word);
            s->plain = true;
            return;
        }
        kind = kind_meant(word);
    }
    say(s->said, "there is no form ");
    say_piece(s, 1);
    if (kind != KIND_NONE) say(s->said, ", perhaps %s is meant", kinds[kind].word);
    s->kind = kind;
}

/* The opening bracket is there. */
static void say_after_bracket(spot *s) {
    int byte = byte_at(s->line, 1);

    if (is_letter(byte)) say_unknown_word(s);
    else if (byte < 0) say(s->said, "the line ends after its opening bracket");
    else if (byte == ' ') {
        say(s->said, "a space stands after the opening bracket, at column 2");
        s->plain = true;
    } else if (!say_strange(s, 1)) say(s->said, "the opening bracket is followed by \"%c\" and not by the word of a form", byte);
}

bool say_word(spot *s) {
    size_t at = blanks_end(s->line, 0);
    char word[WORD_MOST + 1];
    bool capitals;

    if (s->form->expected != EXPECT_WORD) return false;
    if (byte_at(s->line, 0) == '(') {
        say_after_bracket(s);
        return true;
    }
    if (say_strange(s, at)) return true;
    if (at > 0) {
        say(s->said, "the line begins with %s; it must begin with its bracket", blanks_word(s->line, 0));
        s->plain = true;
    } else if (small_word(s->line, 0, word, &capitals) && kind_of_word((const uint8_t *)word, strlen(word)) != KIND_NONE) {
        s->kind = kind_of_word((const uint8_t *)word, strlen(word));
        say(s->said, "the opening bracket before ");
        say_piece(s, 0);
        say(s->said, " is missing");
    } else if (byte_at(s->line, 0) == ')') {
        say(s->said, "the line begins with a closing bracket");
    } else {
        say(s->said, "the line begins with ");
        say_piece(s, 0);
        say(s->said, " and not with an opening bracket");
    }
    return true;
}

bool say_after(spot *s) {
    size_t at = blanks_end(s->line, s->at);

    if (s->form->expected != EXPECT_END) return false;
    s->plain = at == s->line->length;
    if (s->plain) say(s->said, "the line ends with %s", blanks_word(s->line, s->at));
    else if (say_strange(s, at)) return true;
    else if (byte_at(s->line, at) == ')') say(s->said, "an extra closing bracket stands at column %zu", at + 1);
    else if (byte_at(s->line, at) == '(') {
        say(s->said, "another bracket opens after the form, at column %zu; each line has one form", at + 1);
        s->plain = true;
    } else {
        say_piece(s, at);
        say(s->said, " stands after the form, at column %zu", at + 1);
    }
    return true;
}

bool say_broken(spot *s) {
    bool broken = false;
    size_t from = s->at;

    if (s->line->ended) return false;
    if (s->form->expected == EXPECT_WORD && byte_at(s->line, 0) == '(') {
        from = 0;
        s->kind = kind_begun(s->line, 1, &broken);
    } else if (s->form->expected == EXPECT_NOT) {
        from = s->at - 1;
        broken = may_become(s->line, s->at, "not ");
    } else if (s->form->expected == EXPECT_SIGNED) {
        broken = s->at < s->line->length && may_become(s->line, s->at, "-1");
    }
    if (!broken) return false;
    say(s->said, "the text breaks off after ");
    say_piece(s, from);
    return true;
}

/* How many brackets are still open at the end of the line. */
static size_t still_open(const line *l) {
    size_t open = 0;
    size_t i;

    for (i = 0; i < l->length; i++) {
        if (l->bytes[i] == '(') open++;
        if (l->bytes[i] == ')' && open > 0) open--;
    }
    return open;
}

bool say_cut(spot *s) {
    size_t open = still_open(s->line);

    if (s->at < s->line->length) return false;
    if (!s->line->ended) say(s->said, "the text breaks off: ");
    if (s->form->expected == EXPECT_PART || s->form->expected == EXPECT_CLOSING) {
        if (open == 1) say(s->said, "the closing bracket is missing at the end of the line");
        else say(s->said, "%zu closing brackets are missing at the end of the line", open);
        if (s->line->ended) say(s->said, " (a form cannot continue on the next line)");
    } else {
        say(s->said, "the line ends where ");
        say_role(s);
        say(s->said, s->form->role == ROLE_MINUTES ? " belong" : " belongs");
    }
    return true;
}
