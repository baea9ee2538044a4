/* Characters of a text in UTF-8: how long one is, which are spaces, and which a terminal may be shown. */
#ifndef COMMAND_UTF8_H
#define COMMAND_UTF8_H

#include <stdbool.h>
#include <stddef.h>
#include <stdint.h>

#include "say.h"

/* The bytes of the character that begins here; 0 if none does. */
size_t utf8_length(const uint8_t *at, size_t left);

/* The bytes of a space within a line: a blank, a tab, or one of the no-break spaces of word processors and web pages; 0 if there is none. */
size_t space_length(const uint8_t *at, size_t left);

/* Says characters as they stand; control characters, those that turn the direction of writing, and bytes that are none as \xNN. */
void say_shown(struct said *said, const uint8_t *text, size_t length);

/* A name as it may be shown: itself, or a copy that lasts as long as the process. */
const char *shown_name(const char *name);

#endif
