/* What a host may have meant with a text that is no board. */
#ifndef COMMAND_HINT_H
#define COMMAND_HINT_H

#include <stdbool.h>
#include <stddef.h>
#include <stdint.h>

#include "line.h"
#include "say.h"

/* A word more, where a text that was refused looks like rows instead of columns, or like the number of a hand. */
void hint_text(const uint8_t *bytes, size_t length, struct said *why);

/* Whether bytes that stand in no text were meant as one all the same; `why` then says what is wrong with them: UTF-16, a NUL, the mark 0x1A with
 * which old systems end a text, another control character. */
bool hint_bytes(const uint8_t *bytes, size_t length, size_t end, struct said *why);

/* A word more about a move that is refused; `theirs` if the line is fc-solve's. */
void hint_move(const struct played *played, bool theirs, struct said *said);

#endif
