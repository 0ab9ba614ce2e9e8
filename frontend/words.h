/* A message, put together piece by piece. What does not fit is left out. */
#ifndef WORDS_H
#define WORDS_H

#include <stddef.h>
#include <stdint.h>
#include <stdio.h>

/* Longer than any message: the longest lists every second of 1,024 atoms. */
#define WORDS_ROOM 8192

/* How many bytes of a book, of a name or of a number are quoted. */
#define WORDS_QUOTED 40

/* How many lines, literals or terms a message lists. */
#define WORDS_LISTED 12

typedef struct words {
    size_t length;
    char text[WORDS_ROOM];
} words;

void words_clear(words *w);

#if defined(__GNUC__)
__attribute__((format(printf, 2, 3)))
#endif
void say(words *w, const char *format, ...);

/* Bytes as they stand, those that are not printable ASCII as \x09. After `most` bytes three points stand for the rest. */
void say_bytes(words *w, const uint8_t *bytes, size_t length, size_t most);

/* A file's name, whole. Control bytes are escaped, so that no name looks like a message; bytes from 128 on stay as they are, so that editors
 * find the file. It may be longer than words hold. */
void print_file(FILE *to, const char *name);

/* ", " before all pieces of a list but the first. Counts the pieces, and answers 0 after WORDS_LISTED, with "..." for the rest. */
int say_next(words *w, size_t *listed);

/* Numbers, which must come in rising order, as "7, 9 to 12". */
typedef struct ranges {
    size_t first;
    size_t last;
    size_t count;
    words said;
} ranges;

void ranges_add(ranges *r, size_t number);
void ranges_end(ranges *r);

#endif
