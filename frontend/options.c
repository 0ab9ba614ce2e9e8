#include "options.h"

#include <string.h>

static bool take_facts(options *o, const char *file, words *reason) {
    if (o->facts != NULL) {
        say(reason, "--facts was given twice");
        return false;
    }
    o->facts = file;
    return true;
}

static bool wrong_option(const char *option, words *reason) {
    say(reason, "unknown option ");
    say_bytes(reason, (const uint8_t *)option, strlen(option), WORDS_QUOTED);
    return false;
}

/* An option that takes no argument after it. */
static bool take_option(options *o, const char *option, words *reason) {
    if (strcmp(option, "--help") == 0) o->help = true;
    else if (strcmp(option, "--version") == 0) o->version = true;
    else if (strcmp(option, "--report") == 0) o->report = true;
    else if (strcmp(option, "--warn") == 0) o->warn = true;
    else if (strncmp(option, "--facts=", 8) == 0) return take_facts(o, option + 8, reason);
    else return wrong_option(option, reason);
    return true;
}

bool options_read(options *o, int count, char **arguments, words *reason) {
    bool ended = false;
    int i;

    memset(o, 0, sizeof *o);
    o->files = arguments;
    words_clear(reason);
    for (i = 0; i < count; i++) {
        char *argument = arguments[i];

        if (ended || argument[0] != '-' || strcmp(argument, "-") == 0) {
            o->files[o->file_count++] = argument;
        } else if (strcmp(argument, "--") == 0) {
            ended = true;
        } else if (strcmp(argument, "--facts") == 0) {
            if (i + 1 == count) {
                say(reason, "--facts needs a file");
                return false;
            }
            i += 1;
            if (!take_facts(o, arguments[i], reason)) return false;
        } else if (!take_option(o, argument, reason)) {
            return false;
        }
    }
    return true;
}
