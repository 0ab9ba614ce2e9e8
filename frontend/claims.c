/* 21 to 24: what a claim or an open line says of an atom, against its rules. */
#include "explain.h"

/* Where an open line names an atom, from 1. It names them rising. */
static size_t place_of(const book *b, size_t atom) {
    size_t place = 0;
    size_t i;

    for (i = 0; i <= atom; i++) place += b->storage.values[i];
    return place;
}

/* Of an atom that is defined and heads no rule. */
static void say_withdrawn(words *w, const char *which) {
    say(w, "%s is declared defined (line %d) and heads no rule, so it is false", which, DEFINED_LINE);
}

static void say_value(const book *b, const facts *names, explanation *e) {
    size_t atom = b->position;

    e->line = state_line(b);
    if (b->state == BATTENPLUM_STATE_CLAIM) {
        say(&e->said, "pair %zu, of ", atom + 1);
        say_atom(&e->said, names, atom);
        say(&e->said, ", has the value %u; a value is 0 or 1", b->storage.values[atom]);
        return;
    }
    say(&e->said, "place %zu of this open line names ", place_of(b, atom));
    say_atom(&e->said, names, atom);
    if (heads_rule(b, atom)) {
        say(&e->said, ", which heads a rule (line %zu); an atom that heads a rule is not open", rule_row(b, first_rule(b, atom)).line);
        say(&e->said, ", so take it out of this line");
        return;
    }
    say_withdrawn(&e->said, ", which");
    say(&e->said, "; take it out of this line, or, if people set it, out of the defined line");
}

static size_t defined_count(const book *b) {
    size_t count = 0;
    size_t atom;

    for (atom = 0; atom < b->tables.n; atom++) count += is_defined(b, atom);
    return count;
}

static void say_level(const book *b, const facts *names, explanation *e) {
    size_t atom = b->position;
    size_t count = defined_count(b);

    e->line = state_line(b);
    say(&e->said, "pair %zu, of ", atom + 1);
    say_atom(&e->said, names, atom);
    say(&e->said, ", has the level %u; ", b->levels[atom]);
    if (!is_defined(b, atom)) {
        say(&e->said, "the atom is open (it heads no rule and is not declared), so its level is 0");
        return;
    }
    if (heads_rule(b, atom)) say(&e->said, "the atom heads a rule");
    else say(&e->said, "the atom is declared defined (line %d)", DEFINED_LINE);
    if (count == 1) say(&e->said, ", so its level is 1, as no other atom is defined");
    else say(&e->said, ", so its level is from 1 to %zu, as %zu atoms are defined", count, count);
}

/* The first literal of a rule that is not true, or the row's count. */
static size_t first_untrue(const book *b, const row *r) {
    size_t i = 0;

    while (i < r->count && literal_is(b, b->tables.literals[r->start + i], 1)) i++;
    return i;
}

/* The first literal of a rule on a defined atom that is not at a lower level than the head, or the row's count. */
static size_t first_not_lower(const book *b, const row *r, size_t head) {
    size_t i;

    for (i = 0; i < r->count; i++) {
        size_t atom = b->tables.literals[r->start + i] / 2u;

        if (is_defined(b, atom) && b->levels[atom] >= b->levels[head]) return i;
    }
    return i;
}

static void say_why_not(const book *b, const facts *names, words *w, size_t rule, size_t head) {
    row r = rule_row(b, rule);
    size_t untrue = first_untrue(b, &r);
    size_t i = untrue < r.count ? untrue : first_not_lower(b, &r, head);
    size_t atom;

    if (i == r.count) return;
    atom = b->tables.literals[r.start + i] / 2u;
    if (untrue < r.count) say(w, "; at line %zu literal %zu is false, since ", r.line, i + 1);
    else say(w, "; at line %zu the body is all true, but literal %zu is not at a lower level: ", r.line, i + 1);
    say_atom(w, names, atom);
    if (untrue < r.count) say(w, " is claimed %s", b->values[atom] == 1 ? "true" : "false");
    else say(w, " is at level %u", b->levels[atom]);
}

/* The first rule of the atom whose body is all true, else the first of its rules. */
static size_t rule_to_speak_of(const book *b, size_t atom) {
    size_t rule;

    for (rule = 0; rule < rule_count(b); rule++) {
        row r = rule_row(b, rule);

        if (rule_head(b, rule) == atom && first_untrue(b, &r) == r.count) return rule;
    }
    return first_rule(b, atom);
}

/* "none of its rules (lines 2, 3) has a body that is all true", "the body of its rule (line 2) is not all true". */
static void say_no_rule(const book *b, words *w, size_t atom) {
    size_t count = 0;
    size_t listed = 0;
    size_t rule;

    for (rule = 0; rule < rule_count(b); rule++) count += rule_head(b, rule) == atom;
    say(w, count == 1 ? "the body of its rule (line " : "none of its rules (lines ");
    for (rule = 0; rule < rule_count(b); rule++) {
        if (rule_head(b, rule) != atom) continue;
        if (!say_next(w, &listed)) break;
        say(w, "%zu", rule_row(b, rule).line);
    }
    say(w, count == 1 ? ") is not all true" : ") has a body that is all true");
}

static void say_unsupported(const book *b, const facts *names, explanation *e) {
    size_t atom = b->position;

    e->line = state_line(b);
    say_atom(&e->said, names, atom);
    say(&e->said, " is claimed true at level %u, and ", b->levels[atom]);
    if (!heads_rule(b, atom)) {
        say_withdrawn(&e->said, "it");
        return;
    }
    say_no_rule(b, &e->said, atom);
    say(&e->said, " with each defined atom at a lower level");
    say_why_not(b, names, &e->said, rule_to_speak_of(b, atom), atom);
}

/* Of a rule that nothing blocks: the first literal that is false, but at too high a level. */
static void say_why_unblocked(const book *b, const facts *names, words *w, const row *r) {
    size_t i;

    if (r->count == 0) {
        say(w, "; its body is empty, so the head is true");
        return;
    }
    for (i = 0; i < r->count; i++) {
        uint16_t literal = b->tables.literals[r->start + i];

        if (!literal_is(b, literal, 0)) continue;
        say(w, "; literal %zu is false, but ", i + 1);
        say_atom(w, names, literal / 2u);
        say(w, " is at level %u and must be at %s level", b->levels[literal / 2u],
            literal % 2u ? "a lower" : "the head's or a lower");
        return;
    }
    say(w, "; its literals are all true");
}

static void say_unblocked(const book *b, const facts *names, explanation *e) {
    row r = rule_row(b, b->position);
    size_t head = rule_head(b, b->position);

    e->line = r.line;
    say(&e->said, "the head, ");
    say_atom(&e->said, names, head);
    say(&e->said, ", is claimed false at level %u, and no literal blocks this rule", b->levels[head]);
    say_why_unblocked(b, names, &e->said, &r);
}

void explain_claim(const book *b, const facts *names, explanation *e) {
    if (b->number == BATTENPLUM_UNBLOCKED) {
        if (b->position < rule_count(b)) say_unblocked(b, names, e);
    } else if (b->position < b->tables.n) {
        if (b->number == BATTENPLUM_BAD_VALUE) say_value(b, names, e);
        if (b->number == BATTENPLUM_BAD_LEVEL) say_level(b, names, e);
        if (b->number == BATTENPLUM_UNSUPPORTED) say_unsupported(b, names, e);
    }
}
