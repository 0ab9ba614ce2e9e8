/* battenplum-check: checks dispatch books and says in words why one is refused. */
#include <errno.h>
#include <stdio.h>
#include <stdlib.h>
#include <string.h>

#include "book.h"
#include "explain.h"
#include "facts.h"
#include "input.h"
#include "options.h"
#include "report.h"
#include "warn.h"

enum { ALL_ACCEPTED = 0, SOME_REFUSED = 1, TROUBLE = 2 };

/* No facts file is near this long; a device without end is noticed. */
#define FACTS_ROOM 4194304u

static const char usage[] =
    "Usage: battenplum-check [OPTION ...] [FILE ...]\n"
    "Checks dispatch books and says in words why one is refused.\n"
    "With no FILE, or where FILE is -, standard input is read.\n"
    "\n"
    "  --facts FILE  name the atoms by the lines \"N  name  words\" of FILE\n"
    "  --report      print the page of battenplum(1) for each book\n"
    "  --warn        warn of what is odd, on standard error\n"
    "  --help        print this and exit\n"
    "  --version     print the version and exit\n"
    "  --            end the options; all that follows are files\n"
    "\n"
    "The exit status is 0 if all books are accepted, 1 if some are refused, 2 if there was trouble.\n";

static int trouble(const char *name, const char *reason) {
    fprintf(stderr, "battenplum-check: ");
    if (name != NULL) {
        print_file(stderr, name);
        fprintf(stderr, ": ");
    }
    fprintf(stderr, "%s\n", reason);
    return TROUBLE;
}

/* The reason why standard output could not be written, or 0 as long as it could. */
static int output_error = 0;

/* What goes to standard error next comes after it, also if both go to one file. */
static void flush_output(void) {
    errno = 0;
    if (fflush(stdout) != 0 && output_error == 0) output_error = errno;
}

/* The line for a book: "FILE: accepted" or "FILE:LINE: refused NUMBER: explanation". */
static void print_verdict(FILE *to, const book *b, const facts *names) {
    static explanation e;

    print_file(to, b->name);
    if (b->number == BATTENPLUM_ACCEPTED) {
        fprintf(to, ": accepted\n");
        return;
    }
    explain(b, names, &e);
    fprintf(to, ":%zu: refused %u: %s\n", e.line, (unsigned)b->number, e.said.text);
}

static void print_page(const options *o, const book *b, const facts *names) {
    if (o->file_count > 1) {
        print_file(stdout, b->name);
        printf(":\n");
    }
    report_print(b, names);
    flush_output();
    if (b->number != BATTENPLUM_ACCEPTED) print_verdict(stderr, b, names);
}

static int check(const options *o, const facts *names, const char *name) {
    static book b;
    const char *reason = input_read(name, b.text, sizeof b.text, &b.length);

    if (reason != NULL) return trouble(name, reason);
    b.name = name;
    book_judge(&b);
    if (o->report) {
        print_page(o, &b, names);
    } else {
        print_verdict(stdout, &b, names);
        flush_output();
    }
    if (o->warn && b.state != BATTENPLUM_STATE_NONE) warn_book(&b, names);
    return b.number == BATTENPLUM_ACCEPTED ? ALL_ACCEPTED : SOME_REFUSED;
}

static int read_facts(facts *names, const char *file) {
    uint8_t *text = malloc(FACTS_ROOM);
    const char *reason = text == NULL ? "there is no memory" : NULL;
    size_t length = 0;

    if (reason == NULL) reason = input_read(file, text, FACTS_ROOM, &length);
    if (reason == NULL && length == FACTS_ROOM) reason = "the facts are too long";
    names->file = file;
    if (reason == NULL && !facts_read(names, text, length)) reason = "there is no memory";
    free(text);
    return reason == NULL ? ALL_ACCEPTED : trouble(file, reason);
}

/* The exit status, or trouble if something was not written. Some disks tell it only when the file is closed. */
static int finish(int status) {
    int failed;

    flush_output();
    failed = ferror(stdout);
    errno = 0;
    if (fclose(stdout) == 0 && !failed) return status;
    if (output_error == 0) output_error = errno;
    return trouble("standard output", output_error != 0 ? strerror(output_error) : "it cannot be written");
}

static int worse(int one, int other) { return one > other ? one : other; }

/* Facts that cannot be read are trouble, and the books are checked without names. */
static int check_all(const options *o, facts *names) {
    int status = ALL_ACCEPTED;
    int i;

    if (o->facts != NULL) status = read_facts(names, o->facts);
    if (o->warn) warn_facts(names);
    if (o->file_count == 0) return worse(status, check(o, names, "-"));
    for (i = 0; i < o->file_count; i++) status = worse(status, check(o, names, o->files[i]));
    return status;
}

int main(int count, char **arguments) {
    static facts names;
    static words reason;
    options o;
    int status = ALL_ACCEPTED;

    /* Each message in one piece, also beside other programs. */
    setvbuf(stderr, NULL, _IOLBF, BUFSIZ);
    if (!options_read(&o, count > 0 ? count - 1 : 0, arguments + 1, &reason)) {
        say(&reason, "; try battenplum-check --help");
        return trouble(NULL, reason.text);
    }
    if (o.help) {
        fputs(usage, stdout);
    } else if (o.version) {
        printf("battenplum-check %s\n", BATTENPLUM_VERSION);
    } else {
        status = check_all(&o, &names);
        free(names.list);
    }
    return finish(status);
}
