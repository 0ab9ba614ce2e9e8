/* A small display: reads a book from a file, passes its text to the library and prints what the verdict means.
 *
 *     cc -o display display.c $(pkg-config --cflags --libs battenplum)
 *     ./display FILE
 *
 * It prints `accepted`, or `refused NUMBER at POSITION: ` and the meaning, with the line for a fault of the text itself. The exit status
 * is 0 for an accepted book, 1 for a refused one, and 2 for trouble, with the reason on standard error.
 */
#include <errno.h>
#include <stdio.h>
#include <string.h>

#include <battenplum.h>

enum { ACCEPTED = 0, REFUSED = 1, TROUBLE = 2 };

static int trouble(const char *name, int reason) {
    fprintf(stderr, "display: %s: %s\n", name, strerror(reason));
    return TROUBLE;
}

/* The number of the line in which a byte stands. Lines count from 1. */
static unsigned long line_of(const uint8_t *text, size_t position) {
    unsigned long line = 1;
    size_t i;

    for (i = 0; i < position; i++)
        if (text[i] == '\n')
            line++;
    return line;
}

int main(int argc, char **argv) {
    /* One byte more than a text may have, so that a longer text is refused instead of being cut off. */
    static uint8_t text[BATTENPLUM_TEXT_MAX + 1];
    FILE *file;
    size_t length;
    int failed, reason;
    uint32_t verdict, number, position;

    if (argc != 2) {
        fprintf(stderr, "usage: display FILE\n");
        return TROUBLE;
    }
    file = fopen(argv[1], "rb");
    if (file == NULL)
        return trouble(argv[1], errno);
    /* A directory can be opened, and fails here. */
    errno = 0;
    length = fread(text, 1, sizeof text, file);
    failed = ferror(file);
    reason = errno;
    fclose(file);
    if (failed)
        return trouble(argv[1], reason);

    verdict = battenplum_verdict(text, length);
    number = BATTENPLUM_NUMBER(verdict);
    position = BATTENPLUM_POSITION(verdict);
    errno = 0;
    if (number == BATTENPLUM_ACCEPTED) {
        printf("accepted\n");
    } else {
        printf("refused %lu at %lu: %s", (unsigned long)number, (unsigned long)position, battenplum_message(number));
        /* For 1 to 3 the position is the first byte of a line, unless the text is too long or its last line is missing. */
        if (number <= BATTENPLUM_OUT_OF_ORDER && length <= BATTENPLUM_TEXT_MAX) {
            if (position < length)
                printf(" (line %lu)", line_of(text, position));
            else
                printf(" (end of the text)");
        }
        printf("\n");
    }
    /* What was printed may still be in the buffer: a full disk is noticed here. */
    if (fflush(stdout) != 0 || ferror(stdout))
        return trouble("standard output", errno);
    return number == BATTENPLUM_ACCEPTED ? ACCEPTED : REFUSED;
}
