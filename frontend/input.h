/* Files, read whole into memory. */
#ifndef INPUT_H
#define INPUT_H

#include <stddef.h>
#include <stdint.h>

/* Reads a file, or standard input for "-", up to `room` bytes. Null if it was read, else the reason why it was not. */
const char *input_read(const char *name, uint8_t *bytes, size_t room, size_t *length);

#endif
