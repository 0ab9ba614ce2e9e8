#include "input.h"

#include <errno.h>
#include <stdio.h>
#include <string.h>

static const char *read_from(FILE *file, uint8_t *bytes, size_t room, size_t *length) {
    errno = 0;
    *length = fread(bytes, 1, room, file);
    if (!ferror(file)) return NULL;
    return errno != 0 ? strerror(errno) : "it cannot be read";
}

const char *input_read(const char *name, uint8_t *bytes, size_t room, size_t *length) {
    static int input_was_read = 0;
    const char *reason;
    FILE *file;

    if (strcmp(name, "-") == 0) {
        /* The second time it would be empty, which is a verdict on nothing. */
        if (input_was_read) return "standard input was read already";
        input_was_read = 1;
        return read_from(stdin, bytes, room, length);
    }
    file = fopen(name, "rb");
    if (file == NULL) return strerror(errno);
    reason = read_from(file, bytes, room, length);
    fclose(file);
    return reason;
}
