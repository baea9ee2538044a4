/* Files and standard input, read whole. */
#ifndef COMMAND_INPUT_H
#define COMMAND_INPUT_H

#include <stddef.h>
#include <stdint.h>

#include "say.h"

/* No board, line or list is longer; an answer in JSON has more room, and so have the boards of a solution. */
#define INPUT_MOST ((size_t)64 * 1024)
#define SOLUTION_MOST ((size_t)1024 * 1024)
#define ANSWER_MOST ((size_t)256 * 1024)

struct input {
    uint8_t *bytes; /* never NULL after a reading that was done */
    size_t length;
};

/* Reads the file of a name, `-` being standard input. Hands back a status; what is wrong is said to `why`. */
int input_read(const char *name, size_t most, struct input *input, struct said *why);

/* Tells somebody at a terminal that it is read, and what is expected there. Nothing where a file is read. */
void input_prompt(const char *name, const char *what);
void input_free(struct input *input);

/* The name as a reader is told it, with no control character. */
const char *input_name(const char *name);

#endif
