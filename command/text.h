/* Boards as players write them, in fc-solve's text. */
#ifndef COMMAND_TEXT_H
#define COMMAND_TEXT_H

#include <stdbool.h>
#include <stddef.h>
#include <stdint.h>

#include "layout.h"
#include "say.h"

/* Reads a text into a layout. False if it is no board's text; `why` then says where and what was expected. */
bool text_read(const uint8_t *bytes, size_t length, struct layout *layout, struct said *why);

/* The place of the first byte that stands in no text; the length if there is none. */
size_t text_ends(const uint8_t *bytes, size_t length);

#endif
