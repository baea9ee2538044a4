/* The file with a line for each deal of a run: number, answer, pops and moves. */
#ifndef COMMAND_LISTING_H
#define COMMAND_LISTING_H

#include <stdio.h>

#include "sheet.h"

/* Makes the file of a name and writes its first line, which names the figures; NULL for no name. Hands back a status; what is wrong is said. */
int listing_open(const char *who, const char *name, FILE **file);

/* A deal from its sheet. A line is whole in the file when the next deal begins, so that a run that is stopped leaves what it has. */
void listing_put(FILE *file, const struct sheet *one, size_t deal);

int listing_close(const char *who, const char *name, FILE *file);

#endif
