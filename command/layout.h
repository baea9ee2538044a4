/* A board as it was given, before the library has accepted it, with what is needed to say where each card stood. */
#ifndef COMMAND_LAYOUT_H
#define COMMAND_LAYOUT_H

#include <stdbool.h>
#include <stddef.h>
#include <stdint.h>

#include "card.h"

/* What a board was given as. */
enum form { FORM_HAND, FORM_TEXT, FORM_IMAGE, FORM_RECORD };

const char *form_name(enum form form);

/* The count of an image's column is one byte. */
#define LAYOUT_ROOM 255

struct layout {
    enum form form;
    uint8_t cells[CELLS], homes[SUITS], counts[COLUMNS];
    uint8_t cards[COLUMNS][LAYOUT_ROOM];
    bool drawn; /* a text in rows, each a line below the one before */
    size_t cells_line, homes_line, lines[COLUMNS]; /* of a text, counted from 1 */
};

/* No cards at all. */
void layout_clear(struct layout *layout, enum form form);

/* Of an image or a record that the library found to be in shape: 0, or 13 to 15. */
void layout_of_image(const uint8_t *image, struct layout *layout);
void layout_of_record(const uint8_t *record, struct layout *layout);

/* As a record; no column may have more than 52 cards. */
void layout_record(const struct layout *layout, uint8_t *board);

/* The image of a board, and how many bytes it has. */
#define IMAGE_MOST 71
#define IMAGE_VERSION 1
size_t image_of(const uint8_t *board, uint8_t *image);

/* Where the parts of an image begin. */
#define IMAGE_VERSION_AT 2
#define IMAGE_CELLS_AT 3
#define IMAGE_HOMES_AT 7
#define IMAGE_COLUMNS_AT 11

/* The byte at which a card stands in an image or a record. */
size_t byte_of_cell(const struct layout *layout, size_t cell);
size_t byte_of_home(const struct layout *layout, size_t suit);
size_t byte_of_card(const struct layout *layout, size_t column, size_t row);

#endif
