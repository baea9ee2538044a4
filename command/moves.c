#include "moves.h"

#include <string.h>

#include "card.h"
#include "corbelnib.h"

/* The bytes of a record. */
enum { KIND, FROM, TO, COUNT, CODE };

static void say_onto(struct said *said, const uint8_t *board, size_t column) {
    size_t count = count_of(board, column);
    if (count == 0) {
        say(said, " into empty column %zu", column + 1);
        return;
    }
    say(said, " onto ");
    say_card(said, card_of(board, column, count - 1));
    say(said, " in column %zu", column + 1);
}

static void say_others(struct said *said, size_t others) {
    if (others == 1) {
        say(said, " and the card on it");
    } else if (others > 1) {
        say(said, " and the %zu cards on it", others);
    }
}

void say_move(struct said *said, const uint8_t *board, const uint8_t *record) {
    uint8_t kind = record[KIND];
    say_card(said, record[CODE]);
    if (kind == CORBELNIB_COLUMN_TO_COLUMN) {
        say_others(said, (size_t)record[COUNT] - 1);
    }
    if (kind == CORBELNIB_HOME_TO_COLUMN) {
        say(said, " back from home");
    } else if (kind == CORBELNIB_CELL_TO_COLUMN || kind == CORBELNIB_CELL_TO_HOME) {
        say(said, " from cell %c", 'a' + record[FROM]);
    } else {
        say(said, " from column %d", record[FROM] + 1);
    }
    if (kind == CORBELNIB_COLUMN_TO_HOME || kind == CORBELNIB_CELL_TO_HOME) {
        say(said, " home");
    } else if (kind == CORBELNIB_COLUMN_TO_CELL) {
        say(said, " into cell %c", 'a' + record[TO]);
    } else {
        say_onto(said, board, record[TO]);
    }
}

bool paper_move(const uint8_t *board, const uint8_t *record, char *paper) {
    uint8_t text[CORBELNIB_TEXT];
    size_t count = 0;
    uint8_t number =
        corbelnib_write_line(board, CORBELNIB_BOARD, record, CORBELNIB_MOVE, text, sizeof text, &count);
    if (number != CORBELNIB_DONE || count >= PAPER_MOST) {
        count = 0;
    }
    memcpy(paper, text, count);
    paper[count] = '\0';
    return count > 0;
}

void play_move(uint8_t *board, const uint8_t *record) {
    uint8_t after[CORBELNIB_BOARD];
    if (corbelnib_move(board, CORBELNIB_BOARD, record, CORBELNIB_MOVE, after, sizeof after) == CORBELNIB_DONE) {
        memcpy(board, after, sizeof after);
    }
}
