#include "amount.h"

#include <stdint.h>
#include <string.h>

#include "corbelnib.h"

static bool is_digit(char c) {
    return c >= '0' && c <= '9';
}

bool is_digits(const char *word) {
    size_t i = 0;
    while (is_digit(word[i])) {
        i++;
    }
    return i > 0 && word[i] == '\0';
}

/* The digits that a word begins with; `*rest` is what stands behind them. */
static enum amount leading(const char *word, size_t *number, const char **rest) {
    enum amount amount = is_digit(*word) ? AMOUNT_READ : AMOUNT_NO_NUMBER;
    size_t n = 0;
    for (; is_digit(*word); word++) {
        size_t digit = (size_t)(*word - '0');
        if (n > (SIZE_MAX - digit) / 10) {
            amount = AMOUNT_TOO_LARGE;
        }
        n = amount == AMOUNT_TOO_LARGE ? SIZE_MAX : n * 10 + digit;
    }
    *number = n;
    *rest = word;
    return amount;
}

enum amount amount_number(const char *word, size_t *number) {
    const char *rest;
    enum amount amount = leading(word, number, &rest);
    return *rest ? AMOUNT_NO_NUMBER : amount;
}

/* The bits by which a letter raises a number, or -1. */
static int bits_of(char letter) {
    static const char letters[] = "KMGkmg";
    const char *found = letter ? strchr(letters, letter) : NULL;
    return found ? 10 * (int)((found - letters) % 3 + 1) : -1;
}

enum amount amount_memory(const char *word, size_t *bytes) {
    const char *rest;
    enum amount amount = leading(word, bytes, &rest);
    if (amount != AMOUNT_READ || !*rest) {
        return *rest && rest[1] ? AMOUNT_NO_NUMBER : amount;
    }
    int bits = bits_of(*rest);
    if (bits < 0 || rest[1]) {
        return AMOUNT_NO_NUMBER;
    }
    if (*bytes > SIZE_MAX >> bits) {
        return AMOUNT_TOO_LARGE;
    }
    *bytes <<= bits;
    return AMOUNT_READ;
}

size_t capacity_of(size_t bytes) {
    size_t n = bytes / NODE_BYTES;
    return corbelnib_capacity(CORBELNIB_NODES(n), CORBELNIB_HEAP(n), CORBELNIB_KEYS(n), CORBELNIB_COSTS(n));
}
