/* The command line. */
#ifndef OPTIONS_H
#define OPTIONS_H

#include <stdbool.h>

#include "words.h"

typedef struct options {
    bool help;
    bool version;
    bool report;
    bool warn;
    const char *facts; /* a file's name, or null */
    char **files;
    int file_count;
} options;

/* Reads the command line and moves the files to the front of `arguments`. False if an option is wrong, with the reason. */
bool options_read(options *o, int count, char **arguments, words *reason);

#endif
