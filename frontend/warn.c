#include "warn.h"

#include <stdio.h>
#include <string.h>

#include "explain.h"

/* Begins a warning; `end` prints its words. */
static void begin(words *w, const char *file, size_t at_line) {
    print_file(stderr, file);
    fprintf(stderr, ":%zu: warning: ", at_line);
    words_clear(w);
}

static void end(const words *w) { fprintf(stderr, "%s\n", w->text); }

void warn_facts(const facts *names) {
    size_t i;
    words w;

    for (i = 0; i < names->count; i++) {
        const fact *f = &names->list[i];

        if (!f->again) continue;
        begin(&w, names->file, f->line);
        say(&w, "atom %u has a fact already (line %zu), which is kept", f->number, fact_of(names, f->number)->line);
        end(&w);
    }
}

static void use(bool *used, const uint16_t *literals, size_t count) {
    size_t i;

    for (i = 0; i < count; i++) used[literals[i] / 2] = true;
}

static void warn_unused(const book *b) {
    bool used[BATTENPLUM_ATOMS] = {false};
    static ranges unused;
    size_t i;
    words w;

    memset(&unused, 0, sizeof unused);
    for (i = 0; i < rule_count(b); i++) used[rule_head(b, i)] = true;
    use(used, b->tables.literals, b->tables.literals_len);
    use(used, b->tables.load_literals, b->tables.load_literals_len);
    for (i = 0; i < b->tables.n; i++)
        if (!used[i] && b->tables.marks[i] == 0) ranges_add(&unused, i);
    if (unused.count == 0) return;
    ranges_end(&unused);
    begin(&w, b->name, 1);
    say(&w, unused.count == 1 ? "atom %s is used nowhere" : "atoms %s are used nowhere", unused.said.text);
    end(&w);
}

/* Where each literal stood last: the rule + 1, and its place in the body from 1. */
typedef struct stood {
    size_t rule;
    size_t place;
} stood;

static void warn_never_fires(const book *b, const facts *names) {
    static stood last[2 * BATTENPLUM_ATOMS];
    size_t rule, i;
    words w;

    memset(last, 0, sizeof last);
    for (rule = 0; rule < rule_count(b); rule++) {
        row r = rule_row(b, rule);

        for (i = 0; i < r.count; i++) {
            uint16_t literal = b->tables.literals[r.start + i];
            const stood *other = &last[literal ^ 1];

            last[literal].rule = rule + 1;
            last[literal].place = i + 1;
            if (other->rule != rule + 1) continue;
            begin(&w, b->name, r.line);
            say(&w, "this rule can never fire: literals %zu and %zu contradict each other (", other->place, i + 1);
            say_atom(&w, names, literal / 2u);
            say(&w, " and its negation)");
            end(&w);
            break;
        }
    }
}

/* A fact that is numbered above the book's atoms, and perhaps above those of every book. */
static void warn_no_atom(const book *b, const facts *names, const fact *f) {
    words w;

    begin(&w, names->file, f->line);
    if (f->number >= BATTENPLUM_ATOMS) {
        say(&w, "the fact ");
        say_bytes(&w, f->name, f->name_length, WORDS_QUOTED);
        say(&w, " is numbered above %d, and no book has such an atom", BATTENPLUM_ATOMS - 1);
    } else {
        say_atom(&w, names, f->number);
        fprintf(stderr, "%s is not in ", w.text);
        print_file(stderr, b->name);
        words_clear(&w);
        say(&w, ": ");
        say_size(&w, b->tables.n);
    }
    end(&w);
}

static void warn_fact(const book *b, const facts *names, const fact *f) {
    size_t at = 1;
    words w;

    if (f->number >= b->tables.n) {
        warn_no_atom(b, names, f);
        return;
    }
    if (f->open != is_defined(b, f->number)) return;
    if (f->open) at = heads_rule(b, f->number) ? rule_row(b, first_rule(b, f->number)).line : DEFINED_LINE;
    begin(&w, b->name, at);
    say_atom(&w, names, f->number);
    if (!f->open) {
        say(&w, " heads no rule, and its fact does not say that it is open; if it is open, let its fact begin with open");
        say(&w, "; if its rules were withdrawn, name it in (defined ...)");
    } else if (heads_rule(b, f->number)) say(&w, " heads this rule, and its fact says that it is open");
    else say(&w, " is declared defined, and its fact says that it is open");
    end(&w);
}

void warn_book(const book *b, const facts *names) {
    size_t i;

    warn_unused(b);
    warn_never_fires(b, names);
    for (i = 0; i < names->count; i++)
        if (!names->list[i].again) warn_fact(b, names, &names->list[i]);
}
