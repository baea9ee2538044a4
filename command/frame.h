/* What the command prints around a board and around a line, so that its output can be read again. */
#ifndef COMMAND_FRAME_H
#define COMMAND_FRAME_H

#include <stddef.h>
#include <stdint.h>

/* Where the board begins in what `corbelnib play` prints, behind its sentence and a blank line, and how many lines stand before it. 0 for other
 * texts: no line of a board begins as a sentence does. */
size_t frame_board(const uint8_t *text, size_t length, size_t *lines);

/* The line in what `corbelnib judge` prints, behind its sentence and before words or pictures; the whole of other texts. */
void frame_line(const uint8_t **text, size_t *length);

#endif
