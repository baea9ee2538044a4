/* One input through every reader of the command: as a board, as a line and as records on hand 8, as a solution of fc-solve, as an answer in JSON,
 * as the beginning of a sheet. */
#ifndef TESTS_READ_ALL_H
#define TESTS_READ_ALL_H

#include <stdbool.h>
#include <stddef.h>
#include <stdint.h>

/* How often each reader accepted its input. */
struct accepted {
    size_t inputs, boards, lines, records, answers, solutions, sheets;
};

/* Aborts if a reader accepts what the library does not, or refuses without a word. */
void read_all(const uint8_t *bytes, size_t length, struct accepted *accepted);

#endif
