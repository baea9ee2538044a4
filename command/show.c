#define _POSIX_C_SOURCE 200809L

#include "show.h"

#include <stdio.h>
#include <stdlib.h>
#include <string.h>
#include <unistd.h>

#include "card.h"

#define RED "\033[31m"
#define PLAIN "\033[0m"
#define PLACE_WIDTH 4

struct pen pen_of(bool ascii, bool force_colour) {
    const char *no = getenv("NO_COLOR"), *term = getenv("TERM");
    bool plain = (no && *no) || (term && strcmp(term, "dumb") == 0);
    struct pen pen = {ascii, !ascii && (force_colour || (!plain && isatty(STDOUT_FILENO)))};
    return pen;
}

static void show_cards(const uint8_t *board, size_t column) {
    for (size_t row = 0; row < count_of(board, column); row++) {
        uint8_t code = card_of(board, column, row);
        printf("%s%c%c", row ? " " : "", value_letter(value_of(code)), suit_letters[suit_of(code)]);
    }
}

void show_columns(const uint8_t *board) {
    for (size_t column = 0; column < COLUMNS; column++) {
        show_cards(board, column);
        putchar('\n');
    }
}

/* The suits in fc-solve's order. */
static const uint8_t written_suits[SUITS] = {2, 0, 1, 3};

void show_board(const uint8_t *board) {
    printf("Foundations:");
    for (size_t i = 0; i < SUITS; i++) {
        uint8_t suit = written_suits[i];
        printf(" %c-%c", suit_letters[suit], value_letter(home_of(board, suit)));
    }
    printf("\nFreecells:");
    for (size_t cell = 0; cell < CELLS; cell++) {
        uint8_t code = cell_of(board, cell);
        if (code == NO_CARD) {
            printf(" -");
        } else {
            printf(" %c%c", value_letter(value_of(code)), suit_letters[suit_of(code)]);
        }
    }
    putchar('\n');
    for (size_t column = 0; column < COLUMNS; column++) {
        printf(":%s", count_of(board, column) ? " " : "");
        show_cards(board, column);
        putchar('\n');
    }
}

static const char *suit_sign(uint8_t suit, const struct pen *pen) {
    static const char *const letters[] = {"C", "D", "H", "S"};
    static const char *const signs[] = {"\xe2\x99\xa3", "\xe2\x99\xa6", "\xe2\x99\xa5", "\xe2\x99\xa0"};
    return pen->ascii ? letters[suit] : signs[suit];
}

/* A card in a place three characters wide, with a space before it. */
static void draw_card(uint8_t value, uint8_t suit, const struct pen *pen) {
    bool red = pen->colour && is_red(suit);
    const char letter[] = {value_letter(value), '\0'};
    printf(" %s%2s%s%s", red ? RED : "", letter[0] == 'T' ? "10" : letter, suit_sign(suit, pen), red ? PLAIN : "");
}

/* An empty foundation shows its suit. */
static void draw_home(uint8_t value, uint8_t suit, const struct pen *pen) {
    if (value) {
        draw_card(value, suit, pen);
    } else {
        printf("  -%s", suit_sign(suit, pen));
    }
}

static void draw_top(const uint8_t *board, const struct pen *pen) {
    printf("   a   b   c   d    home\n");
    for (size_t cell = 0; cell < CELLS; cell++) {
        uint8_t code = cell_of(board, cell);
        if (code == NO_CARD) {
            printf("  --");
        } else {
            draw_card(value_of(code), suit_of(code), pen);
        }
    }
    printf("   ");
    for (uint8_t suit = 0; suit < SUITS; suit++) {
        draw_home(home_of(board, suit), suit, pen);
    }
    printf("\n\n");
}

/* One row of all columns; spaces are written only before a card. */
static void draw_row(const uint8_t *board, size_t row, const struct pen *pen) {
    int skipped = 0;
    for (size_t column = 0; column < COLUMNS; column++) {
        if (row >= count_of(board, column)) {
            skipped += PLACE_WIDTH;
            continue;
        }
        uint8_t code = card_of(board, column, row);
        printf("%*s", skipped, "");
        draw_card(value_of(code), suit_of(code), pen);
        skipped = 0;
    }
    putchar('\n');
}

void show_picture(const uint8_t *board, const struct pen *pen) {
    size_t deepest = 0;
    draw_top(board, pen);
    for (size_t column = 0; column < COLUMNS; column++) {
        printf("%*zu", PLACE_WIDTH, column + 1);
        deepest = count_of(board, column) > deepest ? count_of(board, column) : deepest;
    }
    putchar('\n');
    for (size_t row = 0; row < deepest; row++) {
        draw_row(board, row, pen);
    }
}
