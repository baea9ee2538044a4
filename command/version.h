/* The version that the header, --version and the papers share, and whether the library that was linked is the proved one. */
#ifndef COMMAND_VERSION_H
#define COMMAND_VERSION_H

#include <stdbool.h>

#include "corbelnib.h"

#ifndef CORBELNIB_VERSION
#define CORBELNIB_VERSION "0.6.1"
#endif

/* False for a library of `make unproved`. */
bool is_proved(void);

/* The version as it is told with every verdict: of a library that is not proved it says so. */
const char *version_told(void);

#endif
