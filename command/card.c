#include "card.h"

#include <string.h>

#define TEN 10
#define SIGN 3 /* bytes of a suit's sign */

const char suit_letters[] = "CDHS";

/* The value of each letter is its place. */
static const char value_letters[] = "0A23456789TJQK";

bool is_won(const uint8_t *board) {
    for (size_t suit = 0; suit < SUITS; suit++) {
        if (home_of(board, suit) != VALUES) {
            return false;
        }
    }
    return true;
}

const char *suit_name(uint8_t suit) {
    static const char *const names[] = {"clubs", "diamonds", "hearts", "spades"};
    return names[suit];
}

char value_letter(uint8_t value) {
    return value_letters[value];
}

void say_card(struct said *said, uint8_t code) {
    static const char *const names[] = {"ace", "2", "3", "4", "5", "6", "7", "8", "9", "10", "jack", "queen", "king"};
    if (is_card(code)) {
        say(said, "%s of %s", names[value_of(code) - 1], suit_name(suit_of(code)));
    } else {
        say(said, "code %u", code);
    }
}

static uint8_t upper(uint8_t letter) {
    return letter >= 'a' && letter <= 'z' ? (uint8_t)(letter - 'a' + 'A') : letter;
}

size_t read_value(const uint8_t *word, size_t length, uint8_t *value) {
    uint8_t letter = length ? upper(word[0]) : '\0';
    const char *found = letter ? strchr(value_letters, letter) : NULL;
    if (letter == '1' && length > 1 && word[1] == '0') {
        *value = TEN;
        return 2;
    }
    if (letter != '1' && !found) {
        return 0;
    }
    /* fc-solve takes 1 for an ace, and 0 before a suit for a ten */
    *value = letter == '1' ? 1 : letter == '0' ? TEN : (uint8_t)(found - value_letters);
    return 1;
}

/* The sign that begins a word, black or white, perhaps with the mark behind it that asks for its colour. */
static size_t read_sign(const uint8_t *word, size_t length, uint8_t *suit) {
    static const char *const signs[] = {"\xe2\x99\xa3", "\xe2\x99\xa6", "\xe2\x99\xa5", "\xe2\x99\xa0",
                                        "\xe2\x99\xa7", "\xe2\x99\xa2", "\xe2\x99\xa1", "\xe2\x99\xa4"};
    for (size_t i = 0; i < 2 * SUITS && length >= SIGN; i++) {
        if (memcmp(word, signs[i], SIGN) == 0) {
            *suit = (uint8_t)(i % SUITS);
            return length >= 2 * SIGN && memcmp(word + SIGN, "\xef\xb8\x8f", SIGN) == 0 ? 2 * SIGN : SIGN;
        }
    }
    return 0;
}

size_t read_suit(const uint8_t *word, size_t length, uint8_t *suit) {
    const char *found = length && *word ? strchr(suit_letters, upper(*word)) : NULL;
    if (!found) {
        return read_sign(word, length, suit);
    }
    *suit = (uint8_t)(found - suit_letters);
    return 1;
}

bool read_card(const uint8_t *word, size_t length, uint8_t *code) {
    uint8_t value, suit;
    size_t taken = read_value(word, length, &value);
    size_t more = taken ? read_suit(word + taken, length - taken, &suit) : 0;
    if (more == 0 || length != taken + more) {
        return false;
    }
    *code = code_of(value, suit);
    return true;
}

bool read_home(const uint8_t *word, size_t length, uint8_t *suit, uint8_t *value) {
    size_t taken = read_suit(word, length, suit);
    if (taken == 0 || length < taken + 2 || word[taken] != '-') {
        return false;
    }
    size_t left = length - taken - 1;
    word += taken + 1;
    if (left == 1 && *word == '0') {
        *value = 0;
        return true;
    }
    return read_value(word, left, value) == left;
}
