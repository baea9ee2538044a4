/* What stands on a sheet of figures, for readers and for programs. */
#ifndef COMMAND_FIGURES_H
#define COMMAND_FIGURES_H

#include <stdbool.h>

#include "sheet.h"

#define ANSWERS 7
#define LENGTHS 201 /* of won lists: 0 to 200 moves */

/* The answers in the order of a sheet. */
struct answered {
    unsigned number;
    const char *brief;
};
extern const struct answered answers[ANSWERS];

size_t deals_on(const struct sheet *sheet);

/* Prints a sheet that the library does not refuse: in words, .. */
void figures_show(const struct sheet *sheet);

/* .. as an object of JSON, .. */
void figures_json(const char *name, const struct sheet *sheet, bool one_line);

/* .. or as a line of CSV under a first line that names the figures. */
void figures_csv_head(void);
void figures_csv(const char *name, const struct sheet *sheet);

#endif
