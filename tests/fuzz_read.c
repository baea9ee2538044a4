/* For AFL++: an input through every reader of the command (tests/read_all.h). Built otherwise it reads one input from standard input. */
#include <stdio.h>
#include <unistd.h>

#include "../command/input.h"
#include "read_all.h"

#ifdef __AFL_FUZZ_TESTCASE_LEN
__AFL_FUZZ_INIT();

int main(void) {
    struct accepted accepted = {0};
    __AFL_INIT();
    unsigned char *bytes = __AFL_FUZZ_TESTCASE_BUF;
    while (__AFL_LOOP(10000)) {
        read_all(bytes, (size_t)__AFL_FUZZ_TESTCASE_LEN, &accepted);
    }
    return 0;
}
#else
int main(void) {
    static unsigned char bytes[ANSWER_MOST + 1];
    struct accepted accepted = {0};
    read_all(bytes, fread(bytes, 1, sizeof bytes, stdin), &accepted);
    return 0;
}
#endif
