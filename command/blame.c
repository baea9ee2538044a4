#include "blame.h"

#include "corbelnib.h"

/* The bytes of an image before its columns, those of the count apart. */
#define IMAGE_HEAD (IMAGE_COLUMNS_AT - IMAGE_VERSION_AT)

#define PLACES_TOLD 3

/* Where a card stands. A text is told by lines and cards, an image and a record by bytes. */
static void say_in_column(struct said *said, const struct layout *layout, size_t column, size_t row) {
    if (layout->drawn) {
        say(said, "in column %zu (line %zu)", column + 1, layout->lines[column] + row);
    } else if (layout->form == FORM_TEXT) {
        say(said, "in column %zu (line %zu, card %zu)", column + 1, layout->lines[column], row + 1);
    } else {
        say(said, "in column %zu (card %zu, byte %zu)", column + 1, row + 1, byte_of_card(layout, column, row));
    }
}

static void say_in_cell(struct said *said, const struct layout *layout, size_t cell) {
    if (layout->form == FORM_TEXT) {
        say(said, "in cell %c (line %zu, card %zu)", (char)('a' + cell), layout->cells_line, cell + 1);
    } else {
        say(said, "in cell %c (byte %zu)", (char)('a' + cell), byte_of_cell(layout, cell));
    }
}

static void say_at_home(struct said *said, const struct layout *layout, size_t suit) {
    if (layout->form == FORM_TEXT) {
        say(said, "home (line %zu)", layout->homes_line);
    } else {
        say(said, "home (byte %zu)", byte_of_home(layout, suit));
    }
}

/* Whether one more place of a card is to be told. Two are what a mistake shows; a damaged image can have hundreds. */
static bool tells(struct said *said, size_t *seen) {
    bool telling = said && *seen < PLACES_TOLD;
    if (telling) {
        say(said, *seen ? " and " : " is ");
    }
    ++*seen;
    return telling;
}

/* How many places a card has. The first ones are told, if somebody is there to be told. */
static size_t places_of(const struct layout *layout, uint8_t code, struct said *said) {
    size_t seen = 0;
    for (size_t cell = 0; cell < CELLS; cell++) {
        if (layout->cells[cell] == code && tells(said, &seen)) {
            say_in_cell(said, layout, cell);
        }
    }
    for (size_t column = 0; column < COLUMNS; column++) {
        for (size_t row = 0; row < layout->counts[column]; row++) {
            if (layout->cards[column][row] == code && tells(said, &seen)) {
                say_in_column(said, layout, column, row);
            }
        }
    }
    if (value_of(code) <= layout->homes[suit_of(code)] && tells(said, &seen)) {
        say_at_home(said, layout, suit_of(code));
    }
    return seen;
}

/* The i-th card of the pack, suit by suit. */
static uint8_t pack_card(size_t i) {
    return code_of((uint8_t)(i % VALUES + 1), (uint8_t)(i / VALUES));
}

static size_t times_seen(const struct layout *layout, uint8_t code) {
    return places_of(layout, code, NULL);
}

/* The first card that is there twice with its places, and how many more are. */
static void blame_twice(const struct layout *layout, struct said *said) {
    size_t others = 0;
    bool found = false;
    for (size_t i = 0; i < PACK; i++) {
        uint8_t code = pack_card(i);
        if (times_seen(layout, code) < 2) {
            continue;
        }
        if (found) {
            others++;
            continue;
        }
        found = true;
        say(said, " The ");
        say_card(said, code);
        say(said, places_of(layout, code, said) > PLACES_TOLD ? " and more." : ".");
    }
    if (others) {
        say(said, " So it is with ");
        say_count(said, others, "card more.", "cards more.");
    }
}

static void blame_missing(const struct layout *layout, struct said *said) {
    const char *before = " Missing: ";
    for (size_t i = 0; i < PACK; i++) {
        if (times_seen(layout, pack_card(i)) == 0) {
            say(said, "%s", before);
            say_card(said, pack_card(i));
            before = ", ";
        }
    }
    say(said, *before == ',' ? "." : "");
}

/* The first code that is no card's; 255 is allowed in cells. */
static void blame_code(const struct layout *layout, struct said *said) {
    for (size_t cell = 0; cell < CELLS; cell++) {
        uint8_t code = layout->cells[cell];
        if (code != NO_CARD && !is_card(code)) {
            say(said, " The code %u stands ", code);
            say_in_cell(said, layout, cell);
            say(said, "; a card's code, or %d for an empty cell, is expected.", NO_CARD);
            return;
        }
    }
    for (size_t column = 0; column < COLUMNS; column++) {
        for (size_t row = 0; row < layout->counts[column]; row++) {
            if (!is_card(layout->cards[column][row])) {
                say(said, " The code %u stands ", layout->cards[column][row]);
                say_in_column(said, layout, column, row);
                say(said, "; a card's code, value * 16 + suit, is expected.");
                return;
            }
        }
    }
}

void blame_layout(const struct layout *layout, uint8_t number, struct said *said) {
    if (number == CORBELNIB_NO_CARD) {
        blame_code(layout, said);
    }
    if (number == CORBELNIB_CARD_TWICE) {
        blame_twice(layout, said);
    }
    /* a card written for another is twice, and the other is missing */
    if (number == CORBELNIB_CARD_TWICE || number == CORBELNIB_CARD_MISSING) {
        blame_missing(layout, said);
    }
}

static void blame_length(const uint8_t *image, size_t length, struct said *said) {
    if (length < IMAGE_VERSION_AT) {
        say(said, " It has ");
        say_count(said, length, "byte", "bytes");
        say(said, "; two are expected that tell how many follow.");
        return;
    }
    say(said, " Bytes 0 and 1 tell ");
    say_number(said, (size_t)256 * image[0] + image[1]);
    say(said, ", and ");
    say_number(said, length - IMAGE_VERSION_AT);
    say(said, " follow.");
}

static void blame_version(const uint8_t *image, size_t length, struct said *said) {
    if (length == IMAGE_VERSION_AT) {
        say(said, " It ends at byte 2, where the version is expected.");
    } else {
        say(said, " Byte 2 is %u; 1 is expected.", image[IMAGE_VERSION_AT]);
    }
}

/* A foundation of more cards than a suit has, at byte `at` and the three after it. */
static bool blame_homes(const uint8_t *bytes, size_t at, struct said *said) {
    for (size_t suit = 0; suit < SUITS; suit++) {
        if (bytes[at + suit] > VALUES) {
            say(said, " Byte %zu has %u cards of %s home; at most %d are expected.", at + suit, bytes[at + suit],
                suit_name((uint8_t)suit), VALUES);
            return true;
        }
    }
    return false;
}

/* The columns do not end where the image ends. */
static void blame_columns(const uint8_t *image, size_t length, struct said *said) {
    size_t at = IMAGE_COLUMNS_AT;
    for (size_t column = 0; column < COLUMNS; column++) {
        if (at >= length) {
            say(said, " It ends at byte %zu, where the count of column %zu is expected.", at, column + 1);
            return;
        }
        size_t count = image[at];
        if (count > length - at - 1) {
            say(said, " Byte %zu tells ", at);
            say_count(said, count, "card", "cards");
            say(said, " in column %zu, and ", column + 1);
            say_count(said, length - at - 1, "byte follows it.", "bytes follow it.");
            return;
        }
        at += 1 + count;
    }
    say(said, " Its eight columns end before byte %zu, and ", at);
    say_count(said, length - at, "byte is left.", "bytes are left.");
}

void blame_image(const uint8_t *image, size_t length, uint8_t number, struct said *said) {
    if (number == CORBELNIB_WRONG_LENGTH) {
        blame_length(image, length, said);
    } else if (number == CORBELNIB_WRONG_VERSION) {
        blame_version(image, length, said);
    } else if (number == CORBELNIB_WRONG_SHAPE && length < IMAGE_COLUMNS_AT) {
        say(said, " It has ");
        say_count(said, length - IMAGE_VERSION_AT, "byte", "bytes");
        say(said, " behind its count; version, cells and foundations take %d.", IMAGE_HEAD);
    } else if (number == CORBELNIB_WRONG_SHAPE) {
        if (!blame_homes(image, IMAGE_HOMES_AT, said)) {
            blame_columns(image, length, said);
        }
    } else {
        struct layout layout;
        layout_of_image(image, &layout);
        blame_layout(&layout, number, said);
    }
}

static void blame_room(const uint8_t *record, struct said *said) {
    for (size_t column = 0; column < COLUMNS; column++) {
        size_t count = count_of(record, column);
        if (count > COLUMN_ROOM) {
            say(said, " Byte %zu tells %zu cards in column %zu; at most %d are expected.", COUNTS_AT + column, count, column + 1,
                COLUMN_ROOM);
            return;
        }
        for (size_t row = count; row < COLUMN_ROOM; row++) {
            if (card_of(record, column, row)) {
                say(said, " Byte %zu, behind the cards of column %zu, is %u; 0 is expected.",
                    CARDS_AT + COLUMN_ROOM * column + row, column + 1, card_of(record, column, row));
                return;
            }
        }
    }
}

void blame_record(const uint8_t *record, uint8_t number, struct said *said) {
    if (number == CORBELNIB_WRONG_SHAPE) {
        if (!blame_homes(record, HOMES_AT, said)) {
            blame_room(record, said);
        }
        return;
    }
    struct layout layout;
    layout_of_record(record, &layout);
    blame_layout(&layout, number, said);
}
