/* Boards as `--picture` draws them: cells and foundations above, then rows, a place of four characters for each column. */
#ifndef COMMAND_PICTURE_H
#define COMMAND_PICTURE_H

#include <stdbool.h>
#include <stddef.h>
#include <stdint.h>

#include "layout.h"
#include "say.h"

/* Whether a text begins as a picture does. */
bool picture_begins(const uint8_t *bytes, size_t length);

/* Reads a picture into a layout that is clear. `before` lines stand before it. False if it is none; `why` then says where. */
bool picture_read(const uint8_t *bytes, size_t length, size_t before, struct layout *layout, struct said *why);

/* Puts a row of cards, at the places where they stand, onto the columns. False if a place has no card and is not empty, which is handed back. */
bool picture_row(const uint8_t *row, size_t length, struct layout *layout, size_t *wrong);

#endif
