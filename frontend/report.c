#include "report.h"

#include <stdio.h>
#include <string.h>

/* The name of the atom that a line "(atom A V K)" speaks of, or nothing. */
static void print_name(const char *text, const facts *names) {
    unsigned atom;
    const fact *found;
    words name;

    if (sscanf(text, "(atom %u", &atom) != 1) return;
    found = fact_of(names, atom);
    if (found == NULL) return;
    words_clear(&name);
    say_bytes(&name, found->name, found->name_length, WORDS_QUOTED);
    printf("  %s", name.text);
}

void report_print(const book *b, const facts *names) {
    static uint8_t page[BATTENPLUM_PAGE_SIZE + 1];
    size_t length = battenplum_report(b->text, b->length, page, BATTENPLUM_PAGE_SIZE);
    char *text = (char *)page;
    char *end;

    page[length] = '\0';
    for (; (end = strchr(text, '\n')) != NULL; text = end + 1) {
        *end = '\0';
        fputs(text, stdout);
        print_name(text, names);
        putchar('\n');
    }
}
