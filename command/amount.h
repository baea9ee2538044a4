/* Numbers that are given as words: decimal digits alone, no sign. */
#ifndef COMMAND_AMOUNT_H
#define COMMAND_AMOUNT_H

#include <stdbool.h>
#include <stddef.h>

/* All parts of the scratch together take so many bytes a node (docs/MEMORY.md). */
#define NODE_BYTES 38

enum amount {
    AMOUNT_READ,
    AMOUNT_NO_NUMBER,
    AMOUNT_TOO_LARGE /* more than a size_t holds; the number is then SIZE_MAX */
};

bool is_digits(const char *word);
enum amount amount_number(const char *word, size_t *number);

/* Bytes, or with K, M or G behind the digits 2^10, 2^20 or 2^30 of them. */
enum amount amount_memory(const char *word, size_t *bytes);

/* How many nodes so many bytes hold. */
size_t capacity_of(size_t bytes);

#endif
