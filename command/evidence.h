/* What stands behind an answer. It is a function of board, settings and flag (docs/PROMISES.md, demand 3), so it can be judged again. */
#ifndef COMMAND_EVIDENCE_H
#define COMMAND_EVIDENCE_H

#include <stdbool.h>
#include <stddef.h>

#include "answer.h"
#include "lend.h"
#include "rise.h"
#include "say.h"

struct evidence {
    bool judged;            /* again, with the settings that the answer tells */
    struct verdict verdict; /* that came then, with the best line whether it was allowed or not */
    struct said broken;     /* why it is not the answer; empty if nothing speaks against it */
};

/* Judges an answer again that can have been given. What was found for another one with the same budget and room serves for both; NULL if
 * there is none. False if this machine has not the memory; `lacking` is then how many bytes that would have been. */
bool evidence_find(const struct answer *answer, const struct answer *other, const struct evidence *others, struct witness *witness,
                   struct evidence *evidence, size_t *lacking);

/* "3, open after 50 boards". */
void say_answer_told(struct said *said, const struct answer *answer);

#endif
