/* Solutions of which fc-solve shows the boards and not the moves. */
#ifndef COMMAND_FCBOARDS_H
#define COMMAND_FCBOARDS_H

#include <stdbool.h>
#include <stddef.h>
#include <stdint.h>

#include "line.h"

/* Whether a line divides two boards, or the boards from what stands before them. */
bool fc_divides(const uint8_t *line, size_t length);

/* Plays the moves that lead from one board to the next; the first must be the one given. Cells are filled from a on, in whatever order
 * they are shown. */
bool fcboards_play(const uint8_t *board, const uint8_t *text, size_t length, struct played *played, struct refusal *refusal);

#endif
