/* The page that battenplum(1) prints. */
#ifndef REPORT_H
#define REPORT_H

#include "book.h"
#include "facts.h"

/* Prints the page of a book on standard output. Two spaces and the name follow the line of an atom that has a name. */
void report_print(const book *b, const facts *names);

#endif
