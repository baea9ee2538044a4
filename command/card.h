/* Cards by their codes, and where things stand in the 432 bytes of a board (include/corbelnib.h). */
#ifndef COMMAND_CARD_H
#define COMMAND_CARD_H

#include <stdbool.h>
#include <stddef.h>
#include <stdint.h>

#include "say.h"

#define SUITS 4
#define VALUES 13
#define CELLS 4
#define COLUMNS 8
#define NO_CARD 255
#define PACK 52
#define COLUMN_ROOM 52

#define CELLS_AT 0
#define HOMES_AT 4
#define COUNTS_AT 8
#define CARDS_AT 16

static inline uint8_t code_of(uint8_t value, uint8_t suit) {
    return (uint8_t)(value * 16 + suit);
}
static inline uint8_t value_of(uint8_t code) {
    return code / 16;
}
static inline uint8_t suit_of(uint8_t code) {
    return code % 16;
}
static inline bool is_card(uint8_t code) {
    return value_of(code) >= 1 && value_of(code) <= VALUES && suit_of(code) < SUITS;
}
static inline bool is_red(uint8_t suit) {
    return suit == 1 || suit == 2;
}

static inline uint8_t cell_of(const uint8_t *board, size_t cell) {
    return board[CELLS_AT + cell];
}
static inline uint8_t home_of(const uint8_t *board, size_t suit) {
    return board[HOMES_AT + suit];
}
static inline uint8_t count_of(const uint8_t *board, size_t column) {
    return board[COUNTS_AT + column];
}
static inline uint8_t card_of(const uint8_t *board, size_t column, size_t row) {
    return board[CARDS_AT + COLUMN_ROOM * column + row];
}

bool is_won(const uint8_t *board);

/* The letters of suits, C D H S, and their names. */
extern const char suit_letters[];
const char *suit_name(uint8_t suit);

/* A value in letters as fc-solve prints it: 0 for none, A, 2 to 9, T, J, Q, K. */
char value_letter(uint8_t value);

/* "6 of hearts"; a code that is no card's by its number. */
void say_card(struct said *said, uint8_t code);

/* A value as fc-solve reads it, in either case: A or 1, 2 to 9, 10, T or 0, J, Q, K. Hands back how many characters it takes, or 0. */
size_t read_value(const uint8_t *word, size_t length, uint8_t *value);

/* A suit by its letter, in either case, or by its sign. Hands back how many bytes it takes, or 0. */
size_t read_suit(const uint8_t *word, size_t length, uint8_t *suit);

/* A whole word that is a card. */
bool read_card(const uint8_t *word, size_t length, uint8_t *code);

/* A whole word that is a foundation: a suit, a dash, and the value of the highest card that is home, or 0. */
bool read_home(const uint8_t *word, size_t length, uint8_t *suit, uint8_t *value);

#endif
