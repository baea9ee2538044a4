#include "hint.h"

#include <string.h>

#include "card.h"
#include "utf8.h"

/* Words of each line, as far as these are of interest. */
#define LINES 7

static bool is_digit(uint8_t byte) {
    return byte >= '0' && byte <= '9';
}

/* A text of digits alone, with white space around them. */
static size_t lone_number(const uint8_t *bytes, size_t length, const uint8_t **number) {
    size_t digits = 0;
    while (length > 0 && (bytes[length - 1] <= ' ')) {
        length--;
    }
    while (length > 0 && *bytes <= ' ') {
        bytes++;
        length--;
    }
    *number = bytes;
    while (digits < length && is_digit(bytes[digits])) {
        digits++;
    }
    return digits == length ? digits : 0;
}

/* How many words the lines have, line by line, those that are blank apart; hands back how many lines there are. */
static size_t count_words(const uint8_t *bytes, size_t length, size_t *words) {
    size_t lines = 0, here = 0;
    bool inside = false;
    for (size_t i = 0; i <= length; i++) {
        bool ends = i == length || bytes[i] == '\n';
        bool space = ends || bytes[i] == '\r' || space_length(bytes + i, length - i) > 0;
        here += !space && !inside;
        inside = !space;
        if (ends && here > 0) {
            if (lines < LINES) {
                words[lines] = here;
            }
            lines++;
            here = 0;
        }
    }
    return lines;
}

/* A hand in rows: six of eight cards, and four in the seventh. */
static bool in_rows(const uint8_t *bytes, size_t length) {
    size_t words[LINES] = {0};
    if (count_words(bytes, length, words) != LINES) {
        return false;
    }
    for (size_t i = 0; i + 1 < LINES; i++) {
        if (words[i] != COLUMNS) {
            return false;
        }
    }
    return words[LINES - 1] == PACK % COLUMNS;
}

void hint_text(const uint8_t *bytes, size_t length, struct said *why) {
    const uint8_t *number;
    size_t digits = lone_number(bytes, length, &number);
    if (digits > 0 && digits <= 5) {
        say(why, ". It says %.*s and nothing else: the hand of a number is asked for by the number in place of the file", (int)digits,
            (const char *)number);
    } else if (in_rows(bytes, length)) {
        say(why, ". Its lines have 8 cards each and the last has 4: it seems to be written in rows, as a table shows a hand, "
                 "and a line is a column here");
    }
}

/* Every second byte of a text in letters is 0 there. */
static bool is_utf16(const uint8_t *bytes, size_t length) {
    bool marked = length >= 2 && ((bytes[0] == 0xff && bytes[1] == 0xfe) || (bytes[0] == 0xfe && bytes[1] == 0xff));
    size_t zeros[2] = {0};
    for (size_t i = 0; i < length; i++) {
        zeros[i % 2] += bytes[i] == 0;
    }
    return length >= 16 && (zeros[0] + zeros[1]) * 3 > length && (marked || zeros[0] == 0 || zeros[1] == 0);
}

bool hint_bytes(const uint8_t *bytes, size_t length, size_t end, struct said *why) {
    if (is_utf16(bytes, length)) {
        say(why, "this is a text in UTF-16, as some programs of Windows save it; save it as UTF-8");
        return true;
    }
    /* an image begins with a 0, a record with codes of cards or 255 */
    if (end < 2) {
        return false;
    }
    size_t line = 1, start = 0;
    for (size_t i = 0; i < end; i++) {
        if (bytes[i] == '\n') {
            line++;
            start = i + 1;
        }
    }
    const char *name = bytes[end] == 0 ? "a NUL, byte 0," : bytes[end] == 0x1a ? "the byte 0x1A, with which old systems end a text," : NULL;
    say(why, "line %zu, character %zu: ", line, end - start + 1);
    if (name) {
        say(why, "%s stands in no text; take it out", name);
    } else {
        say(why, "the byte 0x%02X stands in no text, and this begins as one", bytes[end]);
    }
    return true;
}

/* The move stands in quotation marks. */
static bool onto_itself(const char *bad) {
    return bad[0] == '"' && is_digit((uint8_t)bad[1]) && bad[1] == bad[2];
}

void hint_move(const struct played *played, bool theirs, struct said *said) {
    bool counted = strchr(played->bad.text, 'v') != NULL;
    if (onto_itself(played->bad.text)) {
        say(said, " A column cannot go onto itself.");
    } else if (played->uncounted) {
        say(said, " Before it one card went into an empty column where more could, since no count was told; `fc-solve -m -snx` tells them.");
    } else if (!theirs && counted && played->told == CORBELNIB_OUT_OF_RANGE) {
        /* fc-solve writes v for every run into an empty column */
        say(said, " v and a count stand only where fewer cards go into an empty column than could; if fc-solve wrote this line, "
                  "--fc-solve reads it.");
    }
}
