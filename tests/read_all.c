#include "read_all.h"

#include <stdio.h>
#include <stdlib.h>
#include <string.h>

#include "../command/answer.h"
#include "../command/blame_sheet.h"
#include "../command/demand.h"
#include "../command/fcsolve.h"
#include "../command/given.h"
#include "../command/input.h"
#include "../command/json.h"
#include "../command/line.h"
#include "../command/sheet.h"
#include "../command/text.h"

#define HAND 8

static const char middle[] = "Foundations: H-6 C-9 D-2\nFreecells: QS 3S 2S KD\n8H 3D\nKS QD JC\nAS 8D TD 7D JH TS 9D\n7S 6D\n5S\n"
                             "KH QC JD TC 9H 8S 7H 6S 5D 4S\nKC QH JS TH 9S\n4D\n";

static void hold(bool held, const char *what) {
    if (!held) {
        fprintf(stderr, "%s\n", what);
        abort();
    }
}

static void read_board(const uint8_t *bytes, size_t length, struct accepted *accepted) {
    struct given given = {.name = "input"};
    struct refusal refusal = {.number = NO_REFUSAL};
    if (given_bytes(bytes, length, &given, &refusal)) {
        accepted->boards++;
        hold(corbelnib_examine(given.board, sizeof given.board) == 0, "a board that is none was accepted");
    } else {
        hold(refusal.words.length > 0, "a board was refused without a word");
        hold(refusal.words.length + 1 < SAID_MOST, "the words of a refusal were cut off");
    }
}

static bool played_right(const uint8_t *board, const struct played *played) {
    uint8_t last[CORBELNIB_BOARD];
    size_t count = 0;
    uint8_t told = corbelnib_replay(board, CORBELNIB_BOARD, played->list, CORBELNIB_MOVE * played->moves, last, sizeof last, &count);
    return told == 0 && count == played->moves && memcmp(last, played->last, sizeof last) == 0 &&
           (played->told == 0) == (played->bad.length == 0);
}

static void read_moves(const uint8_t *bytes, size_t length, struct accepted *accepted) {
    uint8_t board[CORBELNIB_BOARD];
    struct played played;
    struct refusal refusal = {.number = NO_REFUSAL};
    corbelnib_number(HAND, board, sizeof board);
    if (line_play(board, bytes, length, &played, &refusal)) {
        accepted->lines++;
        hold(played_right(board, &played), "a line was played wrongly");
    } else {
        hold(refusal.words.length > 0, "a line was refused without a word");
    }
    memset(&played, 0, sizeof played);
    memset(&refusal, 0, sizeof refusal);
    if (records_play(board, bytes, length, &played, &refusal)) {
        accepted->records++;
        hold(played_right(board, &played), "records were played wrongly");
    } else {
        hold(refusal.words.length > 0, "records were refused without a word");
    }
}

/* fc-solve's frame, on the board of tests/data/109.txt, of which the seeds are solutions. */
static void read_solution(const uint8_t *bytes, size_t length, struct accepted *accepted) {
    uint8_t board[CORBELNIB_BOARD];
    struct layout layout;
    struct said why = {0};
    struct played played;
    struct refusal refusal = {.number = NO_REFUSAL};
    text_read((const uint8_t *)middle, sizeof middle - 1, &layout, &why);
    layout_record(&layout, board);
    if (fcsolve_play(board, bytes, length, &played, &refusal)) {
        accepted->solutions++;
        hold(played_right(board, &played), "a solution was played wrongly");
    } else {
        hold(refusal.words.length > 0, "a solution was refused without a word");
    }
}

static void read_answer(const uint8_t *bytes, size_t length, struct accepted *accepted) {
    struct json_tree tree;
    struct said why = {0};
    struct answer answer = {0};
    if (json_read(bytes, length, &tree, &why) && answer_read(tree.values, &answer, &why) && answer_check(tree.values, &answer, &why)) {
        accepted->answers++;
        hold(demand_allows(&answer, &answer, &why), "an answer disagrees with itself");
    } else {
        hold(why.length > 0, "an answer was refused without a word");
    }
    json_free(&tree);
}

/* The sheet that begins with these bytes; the others are 0. A sheet that is added is good, and of any other a figure is blamed. */
static void read_sheet(const uint8_t *bytes, size_t length, struct accepted *accepted) {
    struct sheet sheet = {{0}}, total;
    struct said why = {0};
    for (size_t i = 0; i < length && i < SHEET_BYTES; i++) {
        sheet.word[i / 8] |= (uint64_t)bytes[i] << (8 * (i % 8));
    }
    sheet_empty(&sheet, &total);
    if (sheet_add(&total, &sheet) == CORBELNIB_DONE) {
        accepted->sheets++;
        hold(memcmp(total.word, sheet.word, sizeof total.word) == 0 || sheet.word[CORBELNIB_SHEET_FLAG] > 1, "the sum with nothing is another sheet");
    } else {
        blame_sheet(&sheet, &why);
        hold(why.length > 0, "a sheet was refused without a word");
    }
}

void read_all(const uint8_t *bytes, size_t length, struct accepted *accepted) {
    accepted->inputs++;
    if (length <= INPUT_MOST) {
        read_board(bytes, length, accepted);
        read_moves(bytes, length, accepted);
        read_solution(bytes, length, accepted);
        read_sheet(bytes, length, accepted);
    }
    if (length <= ANSWER_MOST) {
        read_answer(bytes, length, accepted);
    }
}
