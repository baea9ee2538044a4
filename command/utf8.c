#include "utf8.h"

#include <stdlib.h>
#include <string.h>

static bool goes_on(const uint8_t *at, size_t count) {
    for (size_t i = 1; i <= count; i++) {
        if ((at[i] & 0xc0) != 0x80) {
            return false;
        }
    }
    return true;
}

/* The number of a character of two to four bytes. */
static uint32_t number_of(const uint8_t *at, size_t length) {
    uint32_t number = at[0] & (0xffu >> (length + 1));
    for (size_t i = 1; i < length; i++) {
        number = number << 6 | (at[i] & 0x3f);
    }
    return number;
}

size_t utf8_length(const uint8_t *at, size_t left) {
    static const uint32_t lowest[] = {0, 0, 0x80, 0x800, 0x10000};
    if (left == 0 || at[0] < 0x80) {
        return left > 0;
    }
    size_t length = at[0] >= 0xf0 ? 4 : at[0] >= 0xe0 ? 3 : 2;
    if (at[0] < 0xc2 || at[0] > 0xf4 || left < length || !goes_on(at, length - 1)) {
        return 0;
    }
    uint32_t number = number_of(at, length);
    bool half = number >= 0xd800 && number <= 0xdfff; /* of a pair in UTF-16 */
    return number >= lowest[length] && number <= 0x10ffff && !half ? length : 0;
}

size_t space_length(const uint8_t *at, size_t left) {
    static const char *const spaces[] = {" ", "\t", "\xc2\xa0", "\xe2\x80\x87", "\xe2\x80\xaf"};
    for (size_t i = 0; i < sizeof spaces / sizeof *spaces; i++) {
        size_t length = strlen(spaces[i]);
        if (left >= length && memcmp(at, spaces[i], length) == 0) {
            return length;
        }
    }
    return 0;
}

/* Control characters of both blocks, ends of lines, and what makes a terminal write from right to left. */
static bool may_be_shown(const uint8_t *at, size_t length) {
    if (length < 2) {
        return length == 1 && at[0] >= ' ' && at[0] <= '~';
    }
    uint32_t number = number_of(at, length);
    bool control = number < 0xa0 || number == 0x2028 || number == 0x2029;
    bool turns = number == 0x200e || number == 0x200f || (number >= 0x202a && number <= 0x202e) || (number >= 0x2066 && number <= 0x2069);
    return !control && !turns;
}

void say_shown(struct said *said, const uint8_t *text, size_t length) {
    for (size_t i = 0; i < length;) {
        size_t bytes = utf8_length(text + i, length - i);
        if (may_be_shown(text + i, bytes)) {
            say(said, "%.*s", (int)bytes, (const char *)text + i);
        } else {
            bytes = 1;
            say(said, "\\x%02x", text[i]);
        }
        i += bytes;
    }
}

const char *shown_name(const char *name) {
    /* copies are kept where a search for leaks finds them; few names are given */
    static struct kept {
        struct kept *next;
        struct said said;
    } *copies;
    struct said said = {0};
    say_shown(&said, (const uint8_t *)name, strlen(name));
    if (strcmp(said.text, name) == 0) {
        return name;
    }
    struct kept *kept = malloc(sizeof *kept);
    if (!kept) {
        return "a file";
    }
    kept->next = copies;
    kept->said = said;
    copies = kept;
    return kept->said.text;
}
