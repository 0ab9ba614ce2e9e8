/* 25 to 27: what the rules, a clause or a load line come to with the day's open facts. */
#include "explain.h"

static void say_undecided(const book *b, const facts *names, explanation *e) {
    size_t listed = 0;
    size_t atom;

    e->line = rule_row(b, first_rule(b, b->position)).line;
    say_atom(&e->said, names, b->position);
    say(&e->said, " is undecided: the rules make it neither true nor false");
    for (atom = b->position + 1; atom < b->tables.n; atom++) {
        if (b->values[atom] != 2) continue;
        if (listed == 0) say(&e->said, "; undecided too: ");
        if (!say_next(&e->said, &listed)) break;
        say_atom(&e->said, names, atom);
    }
    /* The line may be that of an atom that only follows from the cycle. */
    say(&e->said, "; some undecided atom depends on its own negation");
}

static void say_clause(const book *b, const facts *names, explanation *e) {
    row r = clause_row(b, b->position);
    size_t listed = 0;
    size_t i;

    e->line = r.line;
    if (r.count == 0) {
        say(&e->said, "an empty clause never holds");
        return;
    }
    say(&e->said, "no literal of this clause is true; ");
    for (i = 0; i < r.count; i++) {
        uint16_t literal = b->tables.literals[r.start + i];

        if (!say_next(&e->said, &listed)) break;
        say_atom(&e->said, names, literal / 2u);
        say(&e->said, " is %s", literal % 2u ? "true" : "false");
    }
}

static bool term_is_true(const book *b, const row *r, size_t term) {
    return literal_is(b, b->tables.load_literals[r->start + term], 1);
}

static size_t true_terms(const book *b, const row *r) {
    size_t count = 0;
    size_t i;

    for (i = 0; i < r->count; i++) count += term_is_true(b, r, i);
    return count;
}

/* The counts in tenths and their sum are only the library's, so the minutes are listed as they stand. */
static void say_true_terms(const book *b, const facts *names, words *w, const row *r) {
    size_t count = true_terms(b, r);
    size_t listed = 0;
    size_t i;

    if (count == 0) {
        say(w, "; no term is true, and the sum of none is 0");
        return;
    }
    say(w, count == 1 ? "; the only true term is " : "; the true terms are ");
    for (i = 0; i < r->count; i++) {
        uint16_t literal = b->tables.load_literals[r->start + i];
        int minutes = b->tables.minutes[r->start + i];
        bool one = minutes == 1 || minutes == -1;

        if (!term_is_true(b, r, i)) continue;
        if (!say_next(w, &listed)) break;
        say(w, "term %zu with %d minute%s (%s", i + 1, minutes, one ? "" : "s", literal % 2u ? "not " : "");
        say_atom(w, names, literal / 2u);
        say(w, ")");
    }
    say(w, "; each term is counted in tenths by itself");
}

static void say_load(const book *b, const facts *names, explanation *e) {
    row r = load_row(b, b->position);
    int32_t low = b->tables.loads[4 * b->position];
    int32_t high = b->tables.loads[4 * b->position + 1];

    e->line = r.line;
    if (low > high) {
        say(&e->said, "LO is %d and above HI, which is %d, so this load line never holds", (int)low, (int)high);
        return;
    }
    say(&e->said, "the sum of the true terms of this load line is outside %d to %d tenths", (int)low, (int)high);
    say_true_terms(b, names, &e->said, &r);
}

void explain_model(const book *b, const facts *names, explanation *e) {
    if (b->number == BATTENPLUM_UNDECIDED && b->position < b->tables.n && heads_rule(b, b->position)) say_undecided(b, names, e);
    if (b->number == BATTENPLUM_FAILING_CLAUSE && b->position < clause_count(b)) say_clause(b, names, e);
    if (b->number == BATTENPLUM_FAILING_LOAD && b->position < load_count(b)) say_load(b, names, e);
}
