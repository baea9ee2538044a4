/* Which figure of a sheet that the library refused with 47 does not go with the others. */
#ifndef COMMAND_BLAME_SHEET_H
#define COMMAND_BLAME_SHEET_H

#include "say.h"
#include "sheet.h"

/* Says the first one that is found, in the order in which the header tells them. */
void blame_sheet(const struct sheet *sheet, struct said *said);

#endif
