/* The words after a subcommand's name: options first or last, `--name value` or `--name=value`; `--` ends them. */
#ifndef COMMAND_OPTIONS_H
#define COMMAND_OPTIONS_H

#include <stdbool.h>
#include <stddef.h>

struct option {
    const char *name;   /* with its dashes; NULL ends a table */
    bool *flag;         /* set where the option takes no value */
    const char **value; /* else set to the value */
};

/* The other words, moved to the front of argv. */
struct wordlist {
    size_t count;
    char **word;
};

/* Sets flags and values and gathers the other words, no more than `most`. Hands back a status; what is wrong is said. */
int options_part(const char *who, int argc, char **argv, const struct option *options, size_t most, struct wordlist *words);

/* The number, or the bytes (amount.h), that an option was given as a word. Without a word the number stays. */
int option_number(const char *who, const char *option, const char *word, size_t *number);
int option_memory(const char *who, const char *option, const char *word, size_t *bytes);

/* Complains of a wrong use, with a hint where help is. */
int wrong_use(const char *who, const char *what);

#endif
