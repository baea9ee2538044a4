#include "layout.h"

#include <string.h>

#include "corbelnib.h"

const char *form_name(enum form form) {
    static const char *const names[] = {"hand", "text", "image", "record"};
    return names[form];
}

void layout_clear(struct layout *layout, enum form form) {
    memset(layout, 0, sizeof *layout);
    memset(layout->cells, NO_CARD, sizeof layout->cells);
    layout->form = form;
}

void layout_of_image(const uint8_t *image, struct layout *layout) {
    layout_clear(layout, FORM_IMAGE);
    memcpy(layout->cells, image + IMAGE_CELLS_AT, CELLS);
    memcpy(layout->homes, image + IMAGE_HOMES_AT, SUITS);
    const uint8_t *next = image + IMAGE_COLUMNS_AT;
    for (size_t column = 0; column < COLUMNS; column++) {
        layout->counts[column] = *next++;
        memcpy(layout->cards[column], next, layout->counts[column]);
        next += layout->counts[column];
    }
}

void layout_of_record(const uint8_t *record, struct layout *layout) {
    layout_clear(layout, FORM_RECORD);
    memcpy(layout->cells, record + CELLS_AT, CELLS);
    memcpy(layout->homes, record + HOMES_AT, SUITS);
    memcpy(layout->counts, record + COUNTS_AT, COLUMNS);
    for (size_t column = 0; column < COLUMNS; column++) {
        memcpy(layout->cards[column], record + CARDS_AT + COLUMN_ROOM * column, layout->counts[column]);
    }
}

void layout_record(const struct layout *layout, uint8_t *board) {
    memset(board, 0, CORBELNIB_BOARD);
    memcpy(board + CELLS_AT, layout->cells, CELLS);
    memcpy(board + HOMES_AT, layout->homes, SUITS);
    memcpy(board + COUNTS_AT, layout->counts, COLUMNS);
    for (size_t column = 0; column < COLUMNS; column++) {
        memcpy(board + CARDS_AT + COLUMN_ROOM * column, layout->cards[column], layout->counts[column]);
    }
}

size_t image_of(const uint8_t *board, uint8_t *image) {
    memcpy(image + IMAGE_CELLS_AT, board + CELLS_AT, CELLS);
    memcpy(image + IMAGE_HOMES_AT, board + HOMES_AT, SUITS);
    size_t length = IMAGE_COLUMNS_AT;
    for (size_t column = 0; column < COLUMNS; column++) {
        uint8_t count = count_of(board, column);
        image[length++] = count;
        memcpy(image + length, board + CARDS_AT + COLUMN_ROOM * column, count);
        length += count;
    }
    image[0] = (uint8_t)((length - IMAGE_VERSION_AT) / 256);
    image[1] = (uint8_t)((length - IMAGE_VERSION_AT) % 256);
    image[IMAGE_VERSION_AT] = IMAGE_VERSION;
    return length;
}

size_t byte_of_cell(const struct layout *layout, size_t cell) {
    return cell + (layout->form == FORM_IMAGE ? IMAGE_CELLS_AT : CELLS_AT);
}

size_t byte_of_home(const struct layout *layout, size_t suit) {
    return suit + (layout->form == FORM_IMAGE ? IMAGE_HOMES_AT : HOMES_AT);
}

size_t byte_of_card(const struct layout *layout, size_t column, size_t row) {
    if (layout->form == FORM_RECORD) {
        return CARDS_AT + COLUMN_ROOM * column + row;
    }
    size_t byte = IMAGE_COLUMNS_AT;
    for (size_t before = 0; before < column; before++) {
        byte += (size_t)1 + layout->counts[before];
    }
    return byte + 1 + row;
}
