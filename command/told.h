/* Every number of `enum corbelnib_told` in words, and how the command hands a refusal on. */
#ifndef COMMAND_TOLD_H
#define COMMAND_TOLD_H

#include <stdbool.h>
#include <stdint.h>

#include "say.h"

/* What a refusal means, as a sentence. */
const char *refusal_words(uint8_t number);

/* What an answer of the judge means. */
const char *answer_words(uint8_t answer);

/* Why something is refused: the library's number, or NO_REFUSAL where the words alone tell it, as of a text that is no board. */
#define NO_REFUSAL (-1)
struct refusal {
    int number;
    struct said words;
};

/* Begins the words of a refusal with its sentence and its number. */
void refuse(struct refusal *refusal, uint8_t number);

/* Tells a refusal of a board, a text or a setting, on standard error, or on standard output where failures are JSON (emit.h). */
void tell_refusal(const char *who, const char *name, const struct refusal *refusal);

#endif
