#include "fcboards.h"

#include <string.h>

#include "card.h"
#include "fcsolve.h"
#include "layout.h"
#include "picture.h"
#include "text.h"

/* What stands between two dividing lines. */
struct part {
    const uint8_t *at;
    size_t length;
};

static bool begins(const uint8_t *at, size_t length, const char *words) {
    return length >= strlen(words) && memcmp(at, words, strlen(words)) == 0;
}

bool fc_divides(const uint8_t *line, size_t length) {
    return begins(line, length, "-=-=") || begins(line, length, "====");
}

static size_t row_length(const uint8_t *at, size_t left) {
    const uint8_t *newline = memchr(at, '\n', left);
    return newline ? (size_t)(newline - at) : left;
}

/* The next part, behind a dividing line; false behind the last one. */
static bool next_part(const uint8_t *text, size_t length, size_t *at, struct part *part) {
    bool inside = false;
    while (*at < length) {
        size_t row = row_length(text + *at, length - *at);
        bool divides = fc_divides(text + *at, row), ends = begins(text + *at, row, "This game");
        if (inside && (divides || ends)) {
            return true;
        }
        *at += row + (*at + row < length);
        if (divides) {
            inside = true;
            part->at = text + *at;
            part->length = 0;
        } else if (inside) {
            part->length = (size_t)(text + *at - part->at);
        }
    }
    return inside && part->length > 0;
}

/* Cells and foundations of a picture: cards, and suits with a dash. */
static bool read_top(const uint8_t *row, size_t length, struct layout *layout) {
    size_t cell = 0;
    for (size_t i = 0, word; i < length; i += word) {
        uint8_t suit, value;
        for (word = 0; i + word < length && row[i + word] > ' ';) {
            word++;
        }
        if (word == 0) {
            word = 1;
        } else if (read_home(row + i, word, &suit, &value)) {
            layout->homes[suit] = value;
        } else if (cell == CELLS || !read_card(row + i, word, &layout->cells[cell++])) {
            return false;
        }
    }
    return true;
}

/* The first row with a word is the top; rows of dashes are passed over; the others are cards. */
static bool read_drawn(const struct part *part, struct layout *layout) {
    bool topped = false;
    size_t wrong;
    for (size_t at = 0, row; at < part->length; at += row + 1) {
        const uint8_t *line = part->at + at;
        row = row_length(line, part->length - at);
        size_t length = row > 0 && line[row - 1] == '\r' ? row - 1 : row;
        bool dashes = begins(line, length, "--- ") || begins(line, length, " -- ");
        if (length == 0 || dashes) {
            continue;
        }
        if (!(topped ? picture_row(line, length, layout, &wrong) : read_top(line, length, layout))) {
            return false;
        }
        topped = true;
    }
    return topped;
}

static bool read_board(struct part part, uint8_t *board) {
    struct layout layout;
    struct said why = {0};
    while (part.length > 0 && (*part.at == '\n' || *part.at == '\r')) {
        part.at++;
        part.length--;
    }
    bool drawn = !begins(part.at, part.length, "Foundations:");
    layout_clear(&layout, FORM_TEXT);
    if (!(drawn ? read_drawn(&part, &layout) : text_read(part.at, part.length, &layout, &why))) {
        return false;
    }
    layout_record(&layout, board);
    return corbelnib_examine(board, CORBELNIB_BOARD) == CORBELNIB_DONE;
}

static size_t times_in_cells(const uint8_t *board, uint8_t code) {
    size_t times = 0;
    for (size_t cell = 0; cell < CELLS; cell++) {
        times += cell_of(board, cell) == code;
    }
    return times;
}

/* The same cards everywhere, in whatever order the cells are. */
static bool same(const uint8_t *x, const uint8_t *y) {
    for (size_t cell = 0; cell < CELLS; cell++) {
        if (times_in_cells(x, cell_of(x, cell)) != times_in_cells(y, cell_of(x, cell))) {
            return false;
        }
    }
    return memcmp(x + HOMES_AT, y + HOMES_AT, CORBELNIB_BOARD - HOMES_AT) == 0;
}

/* Whether a step of some count leads from the board to the next; the board then is that one. */
static bool leads(uint8_t *board, const uint8_t *next, struct step *step, uint8_t *record) {
    /* a count matters only for what goes into an empty column */
    bool empty = step->to >= '1' && step->to <= '8' && count_of(board, (size_t)(step->to - '1')) == 0;
    unsigned most = empty && step->from <= '8' ? VALUES : 0;
    for (step->count = 0; step->count <= most; step->count++) {
        uint8_t after[CORBELNIB_BOARD];
        memcpy(after, board, sizeof after);
        if (step_play(after, step, record) == CORBELNIB_DONE && same(after, next)) {
            memcpy(board, after, sizeof after);
            return true;
        }
    }
    return false;
}

static bool find_step(uint8_t *board, const uint8_t *next, uint8_t *record) {
    static const char from[] = "12345678abcd", to[] = "h12345678abcd";
    for (const char *f = from; *f; f++) {
        for (const char *t = to; *t; t++) {
            struct step step = {*f, *t, 0};
            if (leads(board, next, &step, record)) {
                return true;
            }
        }
    }
    return false;
}

static bool wrong_board(size_t number, const char *what, struct refusal *refusal) {
    say(&refusal->words, "board %zu that fc-solve shows %s", number, what);
    return false;
}

static bool first_board(const uint8_t *board, const uint8_t *shown, struct refusal *refusal) {
    return same(board, shown) || wrong_board(1, "is not the one given", refusal);
}

/* The move to the next board. */
static bool take_board(const uint8_t *next, size_t number, struct played *played, struct refusal *refusal) {
    if (CORBELNIB_MOVE * played->moves == CORBELNIB_LIST) {
        refuse(refusal, CORBELNIB_WRONG_LIST);
        return false;
    }
    if (!find_step(played->last, next, played->list + CORBELNIB_MOVE * played->moves)) {
        return wrong_board(number, "is reached from the one before by no move", refusal);
    }
    played->moves++;
    return true;
}

static bool is_blank(const struct part *part) {
    for (size_t i = 0; i < part->length; i++) {
        if (part->at[i] > ' ') {
            return false;
        }
    }
    return true;
}

bool fcboards_play(const uint8_t *board, const uint8_t *text, size_t length, struct played *played, struct refusal *refusal) {
    struct part part = {0};
    uint8_t next[CORBELNIB_BOARD];
    size_t at = 0, boards = 0;
    while (next_part(text, length, &at, &part)) {
        if (is_blank(&part)) {
            continue;
        }
        if (!read_board(part, next)) {
            return wrong_board(boards + 1, "cannot be read", refusal);
        }
        bool taken = boards++ == 0 ? first_board(board, next, refusal) : take_board(next, boards, played, refusal);
        if (!taken) {
            return false;
        }
    }
    if (boards == 0) {
        say(&refusal->words, "there are neither moves nor boards of fc-solve");
    }
    return boards > 0;
}
