/* What is odd about a book that may well be accepted. */
#ifndef WARN_H
#define WARN_H

#include "book.h"
#include "facts.h"

/* Prints the warnings about a facts file alone on standard error. */
void warn_facts(const facts *names);

/* Prints the warnings about a book that the reader accepts on standard error. */
void warn_book(const book *b, const facts *names);

#endif
