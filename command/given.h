/* The board that a word on the command line means: a hand's number, or a file with a text, an image or a record. */
#ifndef COMMAND_GIVEN_H
#define COMMAND_GIVEN_H

#include <stddef.h>
#include <stdint.h>

#include "corbelnib.h"
#include "layout.h"
#include "told.h"

struct given {
    enum form form;
    const char *name; /* of the file; the number as it was written */
    size_t hand;      /* of a hand */
    uint8_t board[CORBELNIB_BOARD];
};

/* Hands back a status. Where it is not STATUS_DONE, the refusal says why. */
int given_read(const char *word, struct given *given, struct refusal *refusal);

/* The board of some bytes, told apart by what they are. False with a refusal. */
bool given_bytes(const uint8_t *bytes, size_t length, struct given *given, struct refusal *refusal);

/* "Hand 617", "The text in FILE": what the word was taken for. */
void say_given(struct said *said, const struct given *given);

#endif
