/* A line of moves as a player gives it: on paper, or records in numbers. */
#ifndef COMMAND_LINE_H
#define COMMAND_LINE_H

#include <stdbool.h>
#include <stddef.h>
#include <stdint.h>

#include "corbelnib.h"
#include "told.h"

/* What was played, and where it stopped. */
struct played {
    uint8_t list[CORBELNIB_LIST];
    size_t moves;                 /* that could be played */
    uint8_t told;                 /* 0, or why the next one is refused */
    uint8_t last[CORBELNIB_BOARD]; /* the board after the moves that could */
    struct said bad;              /* the refused move as it was given */
    bool uncounted;               /* one card went into an empty column where more could, since no count was told */
};

/* Plays a line from a board: two characters a move (docs/SCOPE.md, 'Lines on paper'), or, if it has a comma, records of five numbers
 * each, as 2,0,3,1,211. White space of any kind and length stands between moves, and capitals are read as small letters. What
 * `corbelnib judge` prints is read too. False if this is no line; the refusal says where. */
bool line_play(const uint8_t *board, const uint8_t *text, size_t length, struct played *played, struct refusal *refusal);

/* The same with records as bytes, five a move. */
bool records_play(const uint8_t *board, const uint8_t *bytes, size_t length, struct played *played, struct refusal *refusal);

#endif
