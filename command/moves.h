/* Moves in words and on paper. */
#ifndef COMMAND_MOVES_H
#define COMMAND_MOVES_H

#include <stdbool.h>
#include <stddef.h>
#include <stdint.h>

#include "say.h"

/* A move that can be played on the board: "6 of hearts from column 3 onto 7 of clubs in column 5". */
void say_move(struct said *said, const uint8_t *board, const uint8_t *record);

/* The same as players write it, with a 0 behind it. False for a card that comes back from home. */
#define PAPER_MOST 8
bool paper_move(const uint8_t *board, const uint8_t *record, char *paper);

/* Plays one move of a list that the library has found to be legal. */
void play_move(uint8_t *board, const uint8_t *record);

#endif
