#include "identity.h"

#include <stdio.h>

#include "corbelnib.h"
#include "version.h"

/* The Makefile hands these over (tools/identity.sh). A library that was given without its module has none that is known. */
#ifdef CORBELNIB_IDENTITY
#include CORBELNIB_IDENTITY
#endif
#ifndef IDENTITY_MODULE
#define IDENTITY_MODULE "not known"
#endif
#ifndef IDENTITY_KIT
#define IDENTITY_KIT "not known"
#endif

/* The library's version is asked for as the command runs. */
static void print_library(void) {
    unsigned long number = corbelnib_version();
    printf("library %lu.%lu.%lu", number / 10000, number / 100 % 100, number % 100);
    if (number != CORBELNIB_VERSION_NUMBER) {
        printf(", which does not belong to this command: it was built for %s", CORBELNIB_VERSION);
    }
    printf("\n");
}

void identity_print(void) {
    printf("corbelnib %s\n", version_told());
    print_library();
    printf("module %s\nkit %s\n", IDENTITY_MODULE, IDENTITY_KIT);
}
