/* A line that was played, for programs. */
#ifndef COMMAND_PLAYED_H
#define COMMAND_PLAYED_H

#include "given.h"
#include "line.h"

/* One object: the board, the moves that could be played, the one that could not if there is one, and the board where it stopped. */
void played_json(const struct given *given, const struct played *played);

#endif
