/* --version of a command whose library is not that of its header: what it prints has to be mismatch.out. */
#include "../command/identity.h"

#include "corbelnib.h"

uint32_t corbelnib_version(void) {
    return 12345;
}

int main(void) {
    identity_print();
    return 0;
}
