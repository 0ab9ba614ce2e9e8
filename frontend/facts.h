/* The names of atoms, from a facts file: lines "N  name  words". */
#ifndef FACTS_H
#define FACTS_H

#include <stdbool.h>
#include <stddef.h>
#include <stdint.h>

#include "battenplum.h"
#include "words.h"

/* One byte more than is quoted, so that a longer name is seen to be longer. */
#define FACT_NAME (WORDS_QUOTED + 1)

typedef struct fact {
    uint32_t number; /* stops growing above every atom */
    size_t line;
    bool open;  /* its words begin with the word open */
    bool again; /* an earlier line has the same number */
    size_t name_length;
    uint8_t name[FACT_NAME];
} fact;

typedef struct facts {
    const char *file;
    fact *list;
    size_t count;
    size_t room;
    size_t place[BATTENPLUM_ATOMS]; /* 1 + the place of an atom's fact in the list, or 0 */
} facts;

/* Reads the facts of a text. False if there is no memory for them. */
bool facts_read(facts *f, const uint8_t *text, size_t length);

const fact *fact_of(const facts *f, size_t atom);

/* The first fact of an atom whose name has these bytes, or null. `only` says whether it is the only one. */
const fact *fact_named(const facts *f, const uint8_t *name, size_t length, bool *only);

/* " (contact)", or nothing for an atom without a name. */
void say_name(words *w, const facts *f, size_t atom);

/* "atom 1 (contact)". */
void say_atom(words *w, const facts *f, size_t atom);

#endif
