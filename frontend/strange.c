/* Bytes that may stand nowhere in a book. */
#include "spot.h"

#include <string.h>

static bool has(const line *l, size_t at, const char *bytes) {
    size_t length = strlen(bytes);

    return at < l->length && l->length - at >= length && memcmp(l->bytes + at, bytes, length) == 0;
}

/* Two minus signs begin a comment only where no number can stand. */
static bool is_comment(spot *s, size_t at) {
    int byte = byte_at(s->line, at);

    if (byte == ';' || byte == '#' || byte == '%' || has(s->line, at, "//") || has(s->line, at, "/*")) return true;
    return (s->form->expected == EXPECT_END || s->form->expected == EXPECT_WORD) && has(s->line, at, "--");
}

/* What texts copied from a document have instead of a minus sign. */
static bool is_other_minus(const line *l, size_t at) {
    return has(l, at, "\xe2\x88\x92") || has(l, at, "\xe2\x80\x90") || has(l, at, "\xe2\x80\x91") || has(l, at, "\xe2\x80\x93") ||
           has(l, at, "\xe2\x80\x94");
}

static void say_return(spot *s, size_t at) {
    if (at + 1 == s->line->length && s->line->ended)
        say(s->said, "the line ends with a carriage return (Windows line ends); only byte 10 ends a line");
    else say(s->said, "a carriage return stands at column %zu; only byte 10 ends a line", at + 1);
}

/* A tab or a comma, with the advice that fits its place. */
static void say_separator(spot *s, size_t at) {
    bool is_tab = byte_at(s->line, at) == '\t';
    const char *what = is_tab ? "a tab" : "a comma";
    size_t next = blanks_end(s->line, at + 1);

    if (s->form->expected == EXPECT_WORD && byte_at(s->line, 0) != '(')
        say(s->said, "%s stands at column %zu; the line must begin with its bracket", what, at + 1);
    else if ((is_tab ? next : at + 1) == s->line->length)
        say(s->said, "the line ends with %s", is_tab ? blanks_word(s->line, at) : what);
    else if (s->form->expected == EXPECT_END) say(s->said, "%s stands after the form, at column %zu; each line has one form", what, at + 1);
    else if (byte_at(s->line, at - 1) == '(')
        say(s->said, "%s stands after %s opening bracket, at column %zu", what, at == 1 ? "the" : "an", at + 1);
    else if (byte_at(s->line, next) == ')') say(s->said, "%s stands before the closing bracket, at column %zu", what, at + 1);
    else say(s->said, "%s stands at column %zu; parts are separated by one space", what, at + 1);
}

static bool is_of_the_format(int byte) { return is_digit(byte) || is_letter(byte) || memchr("() -", byte, 4) != NULL; }

static void say_other(spot *s, size_t at) {
    int byte = byte_at(s->line, at);

    if (is_other_minus(s->line, at)) say(s->said, "a dash that is not the minus sign (byte 45) stands at column %zu", at + 1);
    else if (has(s->line, at, "\xc2\xa0")) say(s->said, "a no-break space stands at column %zu", at + 1);
    else if (byte == '"') say(s->said, "a quotation mark stands at column %zu", at + 1);
    else if (byte > 32 && byte < 127) say(s->said, "\"%c\" stands at column %zu", byte, at + 1);
    else say(s->said, "the byte \\x%02x stands at column %zu", (unsigned)byte, at + 1);
    say(s->said, "; a book has only digits, small letters, round brackets, spaces and minus signs");
}

bool say_strange(spot *s, size_t at) {
    int byte = byte_at(s->line, at);
    bool literal_here = at == s->at && (expects_literal(s) || s->form->expected == EXPECT_NOT);

    if (byte < 0 || is_letter(byte)) return false;
    if (is_comment(s, at)) say(s->said, "a comment begins at column %zu; a book has no comments", at + 1);
    else if (is_of_the_format(byte)) return false;
    else if (byte == '\t' || byte == ',') say_separator(s, at);
    else if (byte == '\r') say_return(s, at);
    else if (byte == 0) say(s->said, "a NUL byte (byte 0) stands at column %zu", at + 1);
    else if (byte == '+' && expects_number(s)) say(s->said, "a plus sign stands at column %zu; numbers have none", at + 1);
    else if (literal_here && (byte == '!' || byte == '~'))
        say(s->said, "\"%c\" stands at column %zu; a negated literal is written (not A)", byte, at + 1);
    else say_other(s, at);
    s->plain = true;
    return true;
}
