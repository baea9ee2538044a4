/* What is told of the version. */
#include "version.h"

/* A library that was built without its proofs has this (tools/unproved.sh), and the proved one has not: so it is the library that tells. */
extern const char corbelnib_not_proved[] __attribute__((weak));

bool is_proved(void) {
    return !corbelnib_not_proved;
}

const char *version_told(void) {
    return is_proved() ? CORBELNIB_VERSION : CORBELNIB_VERSION " NOT PROVED";
}
