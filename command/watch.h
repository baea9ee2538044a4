/* What somebody sees who waits for a search: a line on a terminal that is written over, and what Ctrl-C leaves behind. */
#ifndef COMMAND_WATCH_H
#define COMMAND_WATCH_H

#include <stdbool.h>

#include "given.h"
#include "lend.h"
#include "rise.h"
#include "say.h"

/* Judges a board as it was given (rise.h). Between steps a line on a terminal says how far it has come; Ctrl-C says what is known so far and
 * ends the process with STATUS_STOPPED. False if this machine has not the memory; that is said. */
bool judge_watched(const char *who, const struct given *given, const struct settings *settings, struct verdict *verdict);

/* Writes over the line where standard error is a terminal; nothing elsewhere. An empty text takes the line away. */
void watch_line(const char *text);

/* "64,000 of 1,000,000 boards". */
void say_boards(struct said *said, const struct risen *risen, size_t budget);

#endif
