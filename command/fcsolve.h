/* Solutions as fc-solve prints them (docs/FC-SOLVE.md), frame and all. */
#ifndef COMMAND_FCSOLVE_H
#define COMMAND_FCSOLVE_H

#include <stdbool.h>
#include <stddef.h>
#include <stdint.h>

#include "line.h"

/* Plays a solution from a board. Moves are read in letters, `4h 12v2`, where a move into an empty column that tells no count is of one card;
 * or in sentences, `Move a card from stack 3 to freecell 0`; boards between them are passed over. Where there are boards alone the moves
 * are those that lead from one to the next. False if this is none of these; the refusal says where. */
bool fcsolve_play(const uint8_t *board, const uint8_t *text, size_t length, struct played *played, struct refusal *refusal);

/* One move from a column or a cell to a column, a cell or home, in letters; `count` is 0 where it was not told. */
struct step {
    char from, to;
    unsigned count;
};

/* The record of a step on a board, and the board after it. Hands back the library's number. */
uint8_t step_play(uint8_t *board, const struct step *step, uint8_t *record);

#endif
