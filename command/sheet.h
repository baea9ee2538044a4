/* Files with a sheet of figures: its words (include/corbelnib.h), each of 64 bits, the lowest byte first, 5,728 bytes. */
#ifndef COMMAND_SHEET_H
#define COMMAND_SHEET_H

#include <stdbool.h>
#include <stddef.h>
#include <stdint.h>

#include "corbelnib.h"

#define SHEET_BYTES ((size_t)8 * CORBELNIB_SHEET)

struct sheet {
    uint64_t word[CORBELNIB_SHEET];
};

bool sheet_covers(const struct sheet *sheet, size_t deal);

/* The sheet of no deal with the settings of another. */
void sheet_empty(const struct sheet *settings, struct sheet *empty);

/* Adds a sheet to a total, and hands back the library's number. */
uint8_t sheet_add(struct sheet *total, const struct sheet *sheet);

/* Reads the file of a name, `-` being standard input. Only its length is looked at. Hands back a status; what is wrong is said. */
int sheet_read(const char *who, const char *name, struct sheet *sheet);

/* Writes a sheet to a file, or to standard output if there is no name. A file is written under another name in the same folder and takes
 * its own when it is whole, so that no reader finds half a sheet. Hands back a status; what is wrong is said. */
int sheet_write(const char *who, const char *name, const struct sheet *sheet);

/* Whether sheet_write could make its file: asked before the work begins. */
int sheet_writable(const char *who, const char *name);

#endif
