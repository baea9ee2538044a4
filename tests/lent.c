/* What C lends: NULL where the length is 0, one block carved into the scratch, every plain question on known boards. Says what is wrong, and
 * nothing if all is right. */
#include <stdio.h>
#include <stdlib.h>
#include <string.h>

#include "corbelnib.h"

static int failed;

static void is(const char *what, unsigned long long got, unsigned long long wanted) {
    if (got != wanted) {
        printf("%s: %llu, and not %llu\n", what, got, wanted);
        failed = 1;
    }
}

static uint8_t board[CORBELNIB_BOARD], after[CORBELNIB_BOARD], list[CORBELNIB_LIST];
static uint64_t sheet[CORBELNIB_SHEET];
static size_t count, pops;

/* Nothing is lent: 12 for a board, 10, 16, .. for what stands in its place. */
static void no_board(void) {
    int64_t score;
    uint64_t hash;
    uint8_t code;
    is("examine", corbelnib_examine(NULL, 0), 12);
    is("read", corbelnib_read(NULL, 0, NULL, 0), 10);
    is("deal", corbelnib_deal(NULL, 0, NULL, 0), 16);
    is("number", corbelnib_number(617, NULL, 0), 21);
    is("move", corbelnib_move(NULL, 0, NULL, 0, NULL, 0), 12);
    is("replay", corbelnib_replay(NULL, 0, NULL, 0, NULL, 0, &count), 12);
    is("read_line", corbelnib_read_line(NULL, 0, NULL, 0, NULL, 0, &count), 12);
    is("write_line", corbelnib_write_line(NULL, 0, NULL, 0, NULL, 0, &count), 12);
    is("chain", corbelnib_chain(NULL, 0, NULL, 0, &count), 12);
    is("moves", corbelnib_moves(NULL, 0, 1, NULL, 0, &count), 12);
    is("candidates", corbelnib_candidates(NULL, 0, NULL, 0, &count), 12);
    is("token", corbelnib_token(NULL, 0, NULL, 0, &count), 12);
    is("priority", corbelnib_priority(NULL, 0, NULL, 0, &score), 12);
    is("scores", corbelnib_scores(NULL, 0, &score, &score), 12);
    is("signature", corbelnib_signature(NULL, 0, &hash), 12);
    is("features", corbelnib_features(NULL, 0, NULL, 0), 12);
    is("top", corbelnib_top(NULL, 0, 0, &code), 12);
    is("cell", corbelnib_cell(NULL, 0, 0, &code), 12);
    is("home", corbelnib_home(NULL, 0, 0, &count), 12);
    is("most", corbelnib_most(NULL, 0, 0, &count), 12);
    is("won", corbelnib_won(NULL, 0, &code), 12);
    is("safe", corbelnib_safe(NULL, 0, NULL, 0, &count), 12);
    is("judge", corbelnib_judge(NULL, 0, 1, 0, NULL, 0, NULL, 0, NULL, 0, NULL, 0, NULL, 0, &pops, &count), 12);
    is("season", corbelnib_season(1, 1, 1, 0, NULL, 0, NULL, 0, NULL, 0, NULL, 0, NULL, 0), 21);
    is("add", corbelnib_add(NULL, 0, NULL, 0), 47);
    is("capacity", corbelnib_capacity(0, 0, 0, 0), 0);
    is("version", corbelnib_version(), CORBELNIB_VERSION_NUMBER);
}

/* A board is lent, and nothing else. */
static void no_room(void) {
    corbelnib_number(617, board, sizeof board);
    is("move with no record", corbelnib_move(board, sizeof board, NULL, 0, NULL, 0), 30);
    is("the empty list without room", corbelnib_replay(board, sizeof board, NULL, 0, NULL, 0, &count), 21);
    is("the empty list", corbelnib_replay(board, sizeof board, NULL, 0, after, sizeof after, &count), 0);
    is("its moves", count, 0);
    is("its board", (unsigned)memcmp(board, after, sizeof board), 0);
    is("the empty text", corbelnib_read_line(board, sizeof board, NULL, 0, list, sizeof list, &count), 0);
    is("the empty text without room", corbelnib_read_line(board, sizeof board, NULL, 0, NULL, 0, &count), 21);
    is("no room for a text", corbelnib_write_line(board, sizeof board, NULL, 0, NULL, 0, &count), 21);
    is("no room for a chain", corbelnib_chain(board, sizeof board, NULL, 0, &count), 21);
    is("no room for moves", corbelnib_moves(board, sizeof board, 1, NULL, 0, &count), 21);
    is("no room for candidates", corbelnib_candidates(board, sizeof board, NULL, 0, &count), 21);
    is("no room for a token", corbelnib_token(board, sizeof board, NULL, 0, &count), 21);
    is("no room for features", corbelnib_features(board, sizeof board, NULL, 0), 21);
    is("no room for a safe move", corbelnib_safe(board, sizeof board, NULL, 0, &count), 21);
    is("no list", corbelnib_judge(board, sizeof board, 1, 0, NULL, 0, NULL, 0, NULL, 0, NULL, 0, NULL, 0, &pops, &count), 21);
    is("no scratch", corbelnib_judge(board, sizeof board, 1, 0, NULL, 0, NULL, 0, NULL, 0, NULL, 0, list, sizeof list, &pops, &count), 22);
    is("a season without scratch", corbelnib_season(1, 1, 1, 0, NULL, 0, NULL, 0, NULL, 0, NULL, 0, sheet, CORBELNIB_SHEET), 22);
}

static size_t holds(struct corbelnib_scratch s) {
    return corbelnib_capacity(s.nodes_length, s.heap_length, s.keys_length, s.costs_length);
}

/* Blocks of every length near a few nodes, and one in which hand 8 is won. */
static void one_block(void) {
    static uint64_t block[64];
    for (size_t bytes = 0; bytes <= sizeof block; bytes++) {
        struct corbelnib_scratch s = corbelnib_carve(block, bytes);
        uint8_t *end = s.costs + s.costs_length;
        is("a block's nodes", holds(s), bytes / CORBELNIB_NODE);
        is("within the block", end <= (uint8_t *)block + bytes, 1);
    }
    is("no block", holds(corbelnib_carve(NULL, 1000)), 0);
    is("a block that is not aligned", holds(corbelnib_carve((uint8_t *)block + 4, 400)), 0);
    is("bytes for 3 nodes", corbelnib_scratch_bytes(3), 114);
    is("bytes for too many", corbelnib_scratch_bytes(SIZE_MAX / 2), SIZE_MAX);
    size_t bytes = corbelnib_scratch_bytes(2000);
    struct corbelnib_scratch s = corbelnib_carve(malloc(bytes), bytes);
    corbelnib_number(8, board, sizeof board);
    is("hand 8", corbelnib_judge(board, sizeof board, 100, 0, CORBELNIB_SCRATCH(s), list, sizeof list, &pops, &count), CORBELNIB_WON);
    is("its pops", pops, 87);
    is("its moves", count, 98);
    is("the season of hand 8", corbelnib_season(8, 8, 100, 0, CORBELNIB_SCRATCH(s), sheet, CORBELNIB_SHEET), 0);
    is("its length", sheet[CORBELNIB_SHEET_LONGEST], 98);
    free(s.heap);
}

/* Hand 617: 7D TD TH KD 4C 4S JD in the first column, nothing in the cells, nothing home, five cards at once. */
static void questions(void) {
    uint8_t code = 0, won = 7, record[CORBELNIB_MOVE] = {1, 2, 3, 4, 5};
    corbelnib_number(617, board, sizeof board);
    is("top", corbelnib_top(board, sizeof board, 0, &code), 0);
    is("the jack of diamonds", code, 11 * 16 + 1);
    is("column 8", corbelnib_top(board, sizeof board, 8, &code), 30);
    is("cell", corbelnib_cell(board, sizeof board, 3, &code), 0);
    is("empty", code, 255);
    is("cell 4", corbelnib_cell(board, sizeof board, 4, &code), 30);
    is("home", corbelnib_home(board, sizeof board, 3, &count) + count, 0);
    is("suit 4", corbelnib_home(board, sizeof board, 4, &count), 30);
    is("most", corbelnib_most(board, sizeof board, 7, &count) + count, 5);
    is("to column 8", corbelnib_most(board, sizeof board, 8, &count), 30);
    is("won", corbelnib_won(board, sizeof board, &won) + won, 0);
    is("safe", corbelnib_safe(board, sizeof board, record, sizeof record, &count), 0);
    is("whether there is one", count == 0 || corbelnib_move(board, sizeof board, record, sizeof record, after, sizeof after) == 0, 1);
}

/* A chain shown move by move ends where corbelnib_chain ends. */
static void chain_by_moves(void) {
    size_t played = 0, all = 0;
    uint8_t record[CORBELNIB_MOVE], chained[CORBELNIB_BOARD], won = 0;
    corbelnib_number(8, board, sizeof board);
    is("to the end", corbelnib_replay(board, sizeof board, list, CORBELNIB_MOVE * 60, after, sizeof after, &played), 0);
    corbelnib_chain(after, sizeof after, chained, sizeof chained, &all);
    for (played = 0; corbelnib_safe(after, sizeof after, record, sizeof record, &count) == 0 && count == 1; played++) {
        memcpy(board, after, sizeof board);
        corbelnib_move(board, sizeof board, record, sizeof record, after, sizeof after);
    }
    is("moves of the chain", played, all);
    is("its board", (unsigned)memcmp(after, chained, sizeof chained), 0);
    corbelnib_number(8, board, sizeof board);
    corbelnib_replay(board, sizeof board, list, CORBELNIB_MOVE * 98, after, sizeof after, &played);
    is("won", corbelnib_won(after, sizeof after, &won) + won, 1);
}

int main(void) {
    no_board();
    no_room();
    one_block();
    questions();
    chain_by_moves();
    return failed;
}
