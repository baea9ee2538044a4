/* A search whose budget and memory rise to those that were asked for, and that says what they say.
 *
 * What a smaller search says is what the settings asked for say (docs/PROMISES.md) in three cases:
 *   won, exhausted   with more of both, and the same flag (demand 3, T3)
 *   the limit        with more memory, the budget being the same (T4: after so many boards every search stands at the same state)
 *   no room, 23      with more budget, the memory being the same (T4: it comes exactly where the nodes fill the capacity)
 * So a hand that few boards win takes little time and memory, whatever was asked for. */
#ifndef COMMAND_RISE_H
#define COMMAND_RISE_H

#include <stdbool.h>
#include <stddef.h>
#include <stdint.h>

#include "corbelnib.h"
#include "lend.h"

/* What is known between two steps. */
struct risen {
    size_t boards;                /* that were looked at; none of them is won */
    size_t moves;                 /* of the line to the best board seen; 0 if none is better than the start */
    uint8_t list[CORBELNIB_LIST]; /* that line */
};

/* Who is told before each step, the first one too, and then what is known. NULL if nobody is. */
struct witness {
    void (*tell)(struct witness *witness, const struct risen *risen);
};

/* Judges a board: the answer, or the refusal, of the settings asked for. False if this machine has not the memory that it takes; `lacking`
 * is then how many bytes that would have been. */
bool judge_rising(const uint8_t *board, const struct settings *asked, struct witness *witness, struct verdict *verdict, size_t *lacking);

#endif
