/* Demand 3: two masters never disagree (docs/SCOPE.md, 'The three demands'; docs/PROMISES.md, T2 to T5). */
#ifndef COMMAND_DEMAND_H
#define COMMAND_DEMAND_H

#include <stdbool.h>

#include "answer.h"
#include "say.h"

/* Whether both answers can be right, given that each was checked and the boards are the same; `why` says why not. */
bool demand_allows(const struct answer *x, const struct answer *y, struct said *why);

/* Which of two answers to one board tells more: 0, 1, or 2 for either; `why` says why. Won goes before all, exhausted before what is open,
 * more boards before fewer, a best line before none. */
int demand_chooses(const struct answer *x, const struct answer *y, struct said *why);

#endif
