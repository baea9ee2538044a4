#include "picture.h"

#include <string.h>

#include "utf8.h"

#define PLACE_WIDTH 4 /* of a card, in characters (show.c) */

static const char head[] = "   a   b   c   d    home";

/* Some bytes without the spaces around them. */
struct piece {
    const uint8_t *at;
    size_t length;
};

static struct piece trimmed(const uint8_t *at, size_t length) {
    for (size_t space; (space = space_length(at, length)) > 0; length -= space) {
        at += space;
    }
    while (length > 0 && (at[length - 1] == ' ' || at[length - 1] == '\t' || at[length - 1] == '\r')) {
        length--;
    }
    struct piece piece = {at, length};
    return piece;
}

/* The bytes of the next characters of a row, no more than `count`. A byte that is no character counts as one. */
static size_t bytes_of(const uint8_t *at, size_t length, size_t count) {
    size_t bytes = 0;
    while (count-- > 0 && bytes < length) {
        size_t one = utf8_length(at + bytes, length - bytes);
        bytes += one ? one : 1;
    }
    return bytes;
}

static struct piece next_place(const uint8_t **at, size_t *left) {
    size_t bytes = bytes_of(*at, *left, PLACE_WIDTH);
    struct piece piece = trimmed(*at, bytes);
    *at += bytes;
    *left -= bytes;
    return piece;
}

bool picture_row(const uint8_t *row, size_t length, struct layout *layout, size_t *wrong) {
    for (size_t column = 0; length > 0; column++) {
        struct piece piece = next_place(&row, &length);
        uint8_t code;
        if (piece.length == 0) {
            continue;
        }
        *wrong = column + 1;
        if (column >= COLUMNS || !read_card(piece.at, piece.length, &code) || layout->counts[column] == COLUMN_ROOM) {
            return false;
        }
        layout->cards[column][layout->counts[column]++] = code;
    }
    return true;
}

/* Four cells, a gap of three characters, four foundations, each a value or a dash and its suit. */
static bool read_top(const uint8_t *row, size_t length, struct layout *layout) {
    for (size_t cell = 0; cell < CELLS; cell++) {
        struct piece piece = next_place(&row, &length);
        bool empty = piece.length == 2 && memcmp(piece.at, "--", 2) == 0;
        if (!empty && !read_card(piece.at, piece.length, &layout->cells[cell])) {
            return false;
        }
    }
    size_t gap = bytes_of(row, length, 3);
    row += gap;
    length -= gap;
    for (size_t i = 0; i < SUITS; i++) {
        struct piece piece = next_place(&row, &length);
        uint8_t suit, value = 0, code;
        bool none = piece.length > 1 && piece.at[0] == '-' && read_suit(piece.at + 1, piece.length - 1, &suit) == piece.length - 1;
        if (!none && !read_card(piece.at, piece.length, &code)) {
            return false;
        }
        suit = none ? suit : suit_of(code);
        value = none ? 0 : value_of(code);
        layout->homes[suit] = value;
    }
    return length == 0 || trimmed(row, length).length == 0;
}

/* The next row of the text, with its end; false behind the last one. */
static bool next_row(const uint8_t **at, size_t *left, struct piece *row) {
    const uint8_t *newline = *left ? memchr(*at, '\n', *left) : NULL;
    row->at = *at;
    row->length = newline ? (size_t)(newline - *at) : *left;
    size_t taken = row->length + (newline != NULL);
    *at += taken;
    *left -= taken;
    if (row->length > 0 && row->at[row->length - 1] == '\r') {
        row->length--;
    }
    return taken > 0;
}

bool picture_begins(const uint8_t *bytes, size_t length) {
    return length >= sizeof head - 1 && memcmp(bytes, head, sizeof head - 1) == 0;
}

static bool read_picture_line(const struct piece *row, size_t line, struct layout *layout, size_t *place) {
    switch (line) {
    case 0: /* the letters of the cells */
        return true;
    case 1:
        *place = 0;
        return read_top(row->at, row->length, layout);
    case 2: /* a blank line, and the numbers of the columns */
    case 3:
        return true;
    default:
        return picture_row(row->at, row->length, layout, place);
    }
}

bool picture_read(const uint8_t *bytes, size_t length, size_t before, struct layout *layout, struct said *why) {
    struct piece row;
    size_t place = 0;
    layout->drawn = true;
    for (size_t column = 0; column < COLUMNS; column++) {
        layout->lines[column] = before + 5;
    }
    layout->cells_line = layout->homes_line = before + 2;
    for (size_t line = 0; next_row(&bytes, &length, &row); line++) {
        if (read_picture_line(&row, line, layout, &place)) {
            continue;
        }
        say(why, "line %zu", before + line + 1);
        if (place) {
            say(why, ", column %zu", place);
        }
        say(why, ": this is no row of a picture; a place of four characters for each card is expected, as `--picture` draws them");
        return false;
    }
    return true;
}
