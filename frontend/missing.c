/* 12, 15 and 16: a rule, a clause or a load line names an atom that the book does not have. */
#include "explain.h"

static void say_missing(const book *b, const facts *names, words *w, size_t atom) {
    say(w, " ");
    say_atom(w, names, atom);
    say(w, ", and ");
    say_size(w, b->tables.n);
    say(w, "; if that atom is meant, N must be at least %zu", atom + 1);
}

/* The rows follow each other, so one of them holds the place. */
static bool holds(const row *r, size_t place) { return r->start <= place && place < r->start + r->count; }

static void say_literal(const book *b, const facts *names, explanation *e) {
    size_t rows = rule_count(b) + clause_count(b);
    size_t i;

    for (i = 0; i < rows; i++) {
        bool in_rule = i < rule_count(b);
        row r = in_rule ? rule_row(b, i) : clause_row(b, i - rule_count(b));

        if (!holds(&r, b->position)) continue;
        e->line = r.line;
        say(&e->said, "literal %zu of this %s names", b->position - r.start + 1, in_rule ? "rule" : "clause");
        say_missing(b, names, &e->said, b->tables.literals[b->position] / 2u);
        return;
    }
}

static void say_term(const book *b, const facts *names, explanation *e) {
    size_t i;

    for (i = 0; i < load_count(b); i++) {
        row r = load_row(b, i);

        if (!holds(&r, b->position)) continue;
        e->line = r.line;
        say(&e->said, "term %zu of this load line names", b->position - r.start + 1);
        say_missing(b, names, &e->said, b->tables.load_literals[b->position] / 2u);
        return;
    }
}

void explain_missing_atom(const book *b, const facts *names, explanation *e) {
    if (b->number == BATTENPLUM_BAD_LITERAL) {
        say_literal(b, names, e);
    } else if (b->number == BATTENPLUM_BAD_TERM) {
        say_term(b, names, e);
    } else if (b->position < rule_count(b)) {
        e->line = rule_row(b, b->position).line;
        say(&e->said, "the head of this rule is");
        say_missing(b, names, &e->said, rule_head(b, b->position));
    }
}
