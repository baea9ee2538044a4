/* Corbelnib: a FreeCell judge for controller programs.
 *
 * Link with libcorbelnib.a (README says how it is built). No function allocates, blocks, keeps anything between calls or traps;
 * each ends. Two threads may call at once if they lend different memory. The archive wants memcpy and memset from outside, and
 * nothing else. Stack, measured on aarch64 of an older build: corbelnib_judge and corbelnib_season 13 KB, corbelnib_candidates 7 KB,
 * every other function under 3 KB (docs/MEMORY.md).
 *
 * The header is C99, and C++11: it compiles with -std=c99 -pedantic.
 *
 * What is lent: a pointer and then the number of elements behind it. A pointer points to as many elements as are told and is
 * aligned for its type; where 0 are told it may be NULL. No two lent parts of one call overlap, unless both are only read
 * (`const`): the board after a move is written to other memory than the board's own (`after` of corbelnib_move, corbelnib_replay and
 * corbelnib_chain), and one sheet is not both of corbelnib_add. Pointers without a number (`size_t *count`) point to one element. This is all that C cannot have checked; every
 * other value of every argument is examined.
 *
 * A board is CORBELNIB_BOARD (432) bytes: four cells (a card's code, or 255 for none); four foundation counts, clubs,
 * diamonds, hearts, spades; eight column counts; eight columns of room for 52 codes each, the deepest card first, unused
 * room 0. A card's code is value * 16 + suit: ace of clubs 16, king of spades 211. A board is well formed if each of the 52
 * cards is on it exactly once, those on a foundation counted from the ace upward.
 *
 * A move is five bytes: kind, from, to, count, code of the deepest moved card. Kinds: 1 column to column, 2 column to
 * foundation, 3 column to cell, 4 cell to column, 5 cell to foundation, 6 foundation to column. Columns 0 to 7, cells 0 to 3,
 * suits 0 to 3; count is 1 except in kind 1; for kinds 2 and 5 `to` is the card's suit.
 *
 * What comes back is a number: 0 for done (corbelnib_judge: an answer), else why the call was refused. `enum corbelnib_told`
 * below names them all, with a sentence for each; docs/SCOPE.md has the rules of play.
 *
 * Where several hold, the number is the first in the order that the function's paragraph gives. A refusal changes nothing
 * that was lent; the exceptions are said at corbelnib_replay, corbelnib_read_line and corbelnib_write_line. */
#ifndef CORBELNIB_H
#define CORBELNIB_H

#include <stddef.h>
#include <stdint.h>

/* Of this header, the library and the command; as a number ten thousand for each major version, a hundred for each minor one. */
#define CORBELNIB_VERSION "0.6.1"
#define CORBELNIB_VERSION_NUMBER 601

#ifdef __cplusplus
extern "C" {
#endif

/* The library counts in 64 bits: where a size_t has not as many, this is an array that cannot be. (C99 has no other way to say it.) */
typedef char corbelnib_wants_a_size_t_of_64_bits[sizeof(size_t) == 8 ? 1 : -1];

/* Sizes in bytes: a board, a move, the least list buffer (200 moves), the least room for a line on paper, for moves that are listed (836
 * of them), for a token; and how many features there are. */
#define CORBELNIB_BOARD 432
#define CORBELNIB_MOVE 5
#define CORBELNIB_LIST 1000
#define CORBELNIB_TEXT 999
#define CORBELNIB_RECORDS 4180
#define CORBELNIB_TOKEN 32
#define CORBELNIB_FEATURES 7

/* The largest budget of a search, and the largest number of a hand. */
#define CORBELNIB_BUDGET 1000000
#define CORBELNIB_NUMBER 32000

/* Words of 64 bits that a sheet of figures has. */
#define CORBELNIB_SHEET 716

/* Elements of each part of the scratch that n nodes need. */
#define CORBELNIB_NODES(n) (3 * (size_t)(n))
#define CORBELNIB_HEAP(n) ((size_t)(n))
#define CORBELNIB_KEYS(n) (2 * (size_t)(n))
#define CORBELNIB_COSTS(n) (2 * (size_t)(n))

/* Bytes of scratch that a node takes, all parts together. */
#define CORBELNIB_NODE 38

/* The four parts of the scratch. */
struct corbelnib_scratch {
    uint32_t *nodes;
    size_t nodes_length;
    uint64_t *heap;
    size_t heap_length;
    uint64_t *keys;
    size_t keys_length;
    uint8_t *costs;
    size_t costs_length;
};

/* They are eight arguments of corbelnib_judge and corbelnib_season, in this order. */
#define CORBELNIB_SCRATCH(s)                                                                                              \
    (s).nodes, (s).nodes_length, (s).heap, (s).heap_length, (s).keys, (s).keys_length, (s).costs, (s).costs_length

/* How long one block is that has scratch for so many nodes; more than any memory has if that is no size_t. */
static inline size_t corbelnib_scratch_bytes(size_t nodes) {
    return nodes > SIZE_MAX / CORBELNIB_NODE ? SIZE_MAX : CORBELNIB_NODE * nodes;
}

/* Carves one block (from malloc, or an array of uint64_t: aligned to eight bytes) into the parts, for as many nodes as it has
 * room for: bytes / 38. A NULL or a block that is not aligned has room for none. */
static inline struct corbelnib_scratch corbelnib_carve(void *block, size_t bytes) {
    size_t n = block == NULL || (uintptr_t)block % sizeof(uint64_t) != 0 ? 0 : bytes / CORBELNIB_NODE;
    struct corbelnib_scratch s;
    s.heap = (uint64_t *)block;
    s.keys = n == 0 ? s.heap : s.heap + n;
    s.nodes = n == 0 ? (uint32_t *)block : (uint32_t *)(s.keys + 2 * n);
    s.costs = n == 0 ? (uint8_t *)block : (uint8_t *)(s.nodes + 3 * n);
    s.nodes_length = CORBELNIB_NODES(n);
    s.heap_length = CORBELNIB_HEAP(n);
    s.keys_length = CORBELNIB_KEYS(n);
    s.costs_length = CORBELNIB_COSTS(n);
    return s;
}

/* Every number that a call hands back. In quotation marks: what a table can show to a player; corbelnib_says.h has words for each of them, as a
 * function and as a list that programs can take. */
enum corbelnib_told {
    CORBELNIB_DONE = 0,

    /* Answers of corbelnib_judge. */
    CORBELNIB_WON = 0,            /* the list wins */
    CORBELNIB_BEST_AT_LIMIT = 1,  /* the budget is used up; the list leads to the best board seen, not won (only if partial) */
    CORBELNIB_BEST_EXHAUSTED = 2, /* nothing is left to look at; the list leads to the best board seen (only if partial) */
    CORBELNIB_LIMIT = 3,          /* the budget is used up, no list */
    CORBELNIB_EXHAUSTED = 4,      /* nothing is left to look at, no list; no claim that the board cannot be won */
    CORBELNIB_BEST_IS_WON = 5,    /* as 1, and the last board of the list is won: the list is the best seen, not called won */
    CORBELNIB_OUT_OF_NODES = 23,  /* the scratch had no room for another node; no list */

    /* Images, boards and decks. */
    CORBELNIB_WRONG_LENGTH = 10,  /* image under 2 bytes, or its count differs from the bytes that follow */
    CORBELNIB_WRONG_VERSION = 11, /* no version byte, or not 1 */
    CORBELNIB_WRONG_SHAPE = 12,   /* image body too short or too long, a foundation count above 13; a board not of 432 bytes,
                                   * with a column count above 52 or with unused room that is not 0 */
    CORBELNIB_NO_CARD = 13,       /* a code that is no card's */
    CORBELNIB_CARD_TWICE = 14,    /* "A card is on the table twice." */
    CORBELNIB_CARD_MISSING = 15,  /* "A card is missing from the table." */
    CORBELNIB_NO_DECK = 16,       /* a deck that is not 52 cards */
    CORBELNIB_NO_NUMBER = 41,     /* "Hands have the numbers 1 to 32,000." */

    /* Settings and room. */
    CORBELNIB_OVER_BUDGET = 20,   /* a budget above 1,000,000 */
    CORBELNIB_LITTLE_ROOM = 21,   /* too little room lent */
    CORBELNIB_NO_NODE = 22,       /* scratch that holds no node */
    CORBELNIB_WRONG_LIST = 31,    /* a list over 1,000 bytes or not a multiple of 5; a line of over 200 moves */

    /* Lines on paper. */
    CORBELNIB_WRONG_TEXT = 42,    /* "This is no line of moves." */
    CORBELNIB_NOT_WRITABLE = 43,  /* "A card that comes back from home cannot be written." */

    /* Sheets of figures, in the order in which they are looked for. */
    CORBELNIB_WRONG_SHEET = 47,    /* a sheet whose figures do not go together */
    CORBELNIB_OTHER_SETTINGS = 45, /* sheets of another budget, capacity or flag */
    CORBELNIB_COMMON_DEAL = 44,    /* a deal number that both sheets cover */

    /* Moves, in the order in which they are looked for. */
    CORBELNIB_OUT_OF_RANGE = 30,  /* "There is no such move.": a record not of five bytes, a kind, place, card or count that no
                                   * record has, or a column to itself; also a kind of move that is none, where one is asked for */
    CORBELNIB_SOURCE_EMPTY = 33,  /* "There is no card to take." */
    CORBELNIB_TOO_MANY = 35,      /* "There are not that many cards." */
    CORBELNIB_OTHER_CARD = 34,    /* "Another card lies there." */
    CORBELNIB_OVER_LIMIT = 36,    /* "Too many cards at once: empty a cell or a column first." */
    CORBELNIB_NO_RUN = 37,        /* "These cards are no run: each one lower, red and black in turn." */
    CORBELNIB_NO_FIT = 38,        /* "The card does not fit on that column." */
    CORBELNIB_CELL_FULL = 39,     /* "That cell is taken." */
    CORBELNIB_NOT_NEXT = 40       /* "Another card of this suit has to go home first." */
};

/* An answer of corbelnib_judge, and no refusal. */
#define CORBELNIB_IS_ANSWER(told) ((told) <= CORBELNIB_BEST_IS_WON || (told) == CORBELNIB_OUT_OF_NODES)

/* A move is refused (corbelnib_move, corbelnib_replay, corbelnib_priority, corbelnib_read_line, corbelnib_write_line). */
#define CORBELNIB_IS_BAD_MOVE(told) \
    ((told) == CORBELNIB_OUT_OF_RANGE || ((told) >= CORBELNIB_SOURCE_EMPTY && (told) <= CORBELNIB_NOT_NEXT))

/* The kinds of moves, the first byte of a record. */
enum corbelnib_kind {
    CORBELNIB_COLUMN_TO_COLUMN = 1,
    CORBELNIB_COLUMN_TO_HOME = 2,
    CORBELNIB_COLUMN_TO_CELL = 3,
    CORBELNIB_CELL_TO_COLUMN = 4,
    CORBELNIB_CELL_TO_HOME = 5,
    CORBELNIB_HOME_TO_COLUMN = 6
};

/* Where corbelnib_features puts each feature. */
enum corbelnib_feature {
    CORBELNIB_HOME = 0,      /* cards home */
    CORBELNIB_IMMEDIATE = 1, /* cards that can go home at once */
    CORBELNIB_BLOCKED = 2,   /* cards on top of aces, twos and threes in columns */
    CORBELNIB_IMBALANCE = 3, /* the largest foundation count less the smallest */
    CORBELNIB_USED = 4,      /* cells with a card */
    CORBELNIB_EMPTY = 5,     /* empty columns */
    CORBELNIB_LONGEST = 6    /* the longest run */
};

/* Where a sheet has each figure. Absent marks (no deal is won) are 0 in both words: deal numbers begin at 1. */
enum corbelnib_figure {
    CORBELNIB_SHEET_BUDGET = 0,         /* the settings of all its deals: budget, .. */
    CORBELNIB_SHEET_CAPACITY = 1,       /* .. how many nodes the scratch held, .. */
    CORBELNIB_SHEET_FLAG = 2,           /* .. and 1 if best-progress lists were allowed, else 0 */
    CORBELNIB_SHEET_ANSWERS = 3,        /* seven words: how many deals were answered 0, 1, 2, 3, 4, 5 and 23 */
    CORBELNIB_SHEET_POPS = 10,          /* the pops of all deals together */
    CORBELNIB_SHEET_SHORTEST = 11,      /* moves of the shortest won list .. */
    CORBELNIB_SHEET_SHORTEST_DEAL = 12, /* .. and the lowest deal number that has one */
    CORBELNIB_SHEET_LONGEST = 13,       /* the same of the longest */
    CORBELNIB_SHEET_LONGEST_DEAL = 14,
    CORBELNIB_SHEET_LISTS = 15,         /* 201 words: how many deals were won by a list of 0, 1, .. 200 moves */
    CORBELNIB_SHEET_COVERS = 216        /* 500 words: bit b of word w is 1 if deal 64 * w + b + 1 is on the sheet */
};

/* Reads an image (a two-byte big-endian count of the bytes that follow; version byte 1; four cells; four foundation counts;
 * eight columns, each a count and then as many codes, the deepest first) and writes its board, 432 bytes, to the start of
 * `board`; bytes beyond stay. Refusals: 10 to 15 of the image, then 21 if `board` has fewer than 432 bytes. */
uint8_t corbelnib_read(const uint8_t *image, size_t image_length, uint8_t *board, size_t board_length);

/* Deals a deck of 52 codes (place i goes to column i mod 8) and writes the board, 432 bytes, to the start of `board`; bytes
 * beyond stay. Refusals: 16, 13, 14, then 21 if `board` has fewer than 432 bytes. */
uint8_t corbelnib_deal(const uint8_t *deck, size_t deck_length, uint8_t *board, size_t board_length);

/* Deals the hand of a number, 1 to 32,000, as players know them by the widely published generator, and writes the board, 432
 * bytes, to the start of `board`; bytes beyond stay. Refusals: 41, then 21 if `board` has fewer than 432 bytes. */
uint8_t corbelnib_number(size_t number, uint8_t *board, size_t board_length);

/* Says whether a board is well formed: 0, or the first of 12 to 15. Writes nothing. Every function below that takes a board
 * does this itself and refuses with the same number. */
uint8_t corbelnib_examine(const uint8_t *board, size_t board_length);

/* Plays one move, five bytes in `record`, and writes the board after it, 432 bytes, to the start of `after`; bytes beyond
 * stay. Refusals: 12 to 15, then why the move is refused (30, 33, 35, 34, 36 to 40), then 21 if `after` has fewer than 432
 * bytes. */
uint8_t corbelnib_move(const uint8_t *board, size_t board_length, const uint8_t *record, size_t record_length,
                       uint8_t *after, size_t after_length);

/* Plays a list of moves, five bytes each, writes the board at its end to the start of `after` and tells in `*played` how many
 * moves were played: all. Refusals: 12 to 15, 31, 21 if `after` has fewer than 432 bytes, then why the first bad move is
 * refused (30, 33, 35, 34, 36 to 40). With these, and only then, something is written beside a refusal: `*played` is the place
 * of the bad move, counted from 0, and `after` the board before it. */
uint8_t corbelnib_replay(const uint8_t *board, size_t board_length, const uint8_t *list, size_t list_length,
                         uint8_t *after, size_t after_length, size_t *played);

/* Reads a line as players write it on paper and writes the records of its moves to the start of `list`, telling in `*count` how many
 * there are. Columns are 1 to 8, cells a to d, h is home: `6a` column 6 to cell a, `51` column 5 to column 1, `ah` cell a home. Into an
 * empty column go as many cards as may; `12v3` says that three go, if more could. Onto an occupied column go as many as fit. One space
 * stands between two moves and none at either end; the empty text is the line with no moves. Only these characters are read, in lower
 * case; a newline at the end is a wrong character. Refusals: 12 to 15, 21 if `list` has fewer than 1,000 bytes, 42 for a text that is
 * no line, 31 past 200 moves, then the number of the first move that cannot be played (30, 33 to 40). `*count` is then, with 42, the
 * place of the first wrong character (the text's length if it is cut short), with 30 and 33 to 40 the place of the move, both counted
 * from 0; nothing else is written beside a refusal. */
uint8_t corbelnib_read_line(const uint8_t *board, size_t board_length, const uint8_t *text, size_t text_length,
                            uint8_t *list, size_t list_length, size_t *count);

/* Writes a list of moves, five bytes each, as such a line to the start of `text` (no 0 at its end) and tells in `*count` how many bytes
 * it has, at most 999. Read from the same board it gives the same records. Refusals: 12 to 15, 31, the number of the first bad move (30,
 * 33 to 40), 43 for a card that goes from a foundation to a column, which the notation cannot say, 21 if `text` has fewer than 999
 * bytes. With 30, 33 to 40 and 43 `*count` is the place of the move, counted from 0; nothing else is written beside a refusal. */
uint8_t corbelnib_write_line(const uint8_t *board, size_t board_length, const uint8_t *list, size_t list_length,
                             uint8_t *text, size_t text_length, size_t *count);

/* Lists the allowed moves of one kind, 1 to 6: their records to the start of `records`, in the judge's order, their number
 * to `*count`; bytes beyond stay. Refusals: 12 to 15, 30 for a kind that is none, 21 if `records` has fewer than 4,180 bytes
 * (no board has more than 836 moves). */
uint8_t corbelnib_moves(const uint8_t *board, size_t board_length, uint8_t kind, uint8_t *records, size_t records_length,
                        size_t *count);

/* Lists the moves that a search tries on a board, in the order in which it tries them, as corbelnib_moves does. Refusals: 12
 * to 15, then 21 if `records` has fewer than 4,180 bytes. */
uint8_t corbelnib_candidates(const uint8_t *board, size_t board_length, uint8_t *records, size_t records_length,
                             size_t *count);

/* Tells in `*priority` by how much a search prefers a move. Refusals: 12 to 15, then why the move is
 * refused, as in corbelnib_move. */
uint8_t corbelnib_priority(const uint8_t *board, size_t board_length, const uint8_t *record, size_t record_length,
                           int64_t *priority);

/* Plays the chain of safe moves home, writes the board after it to the start of `after` (the same board if there is no safe
 * move) and tells in `*moves` how many there were; bytes beyond stay. Refusals: 12 to 15, then 21 if `after` has fewer than
 * 432 bytes. */
uint8_t corbelnib_chain(const uint8_t *board, size_t board_length, uint8_t *after, size_t after_length, size_t *moves);

/* Writes the record of the first safe move, which the chain begins with, five bytes, to the start of `record` and tells in `*count` 1; or
 * tells 0 and writes nothing, if there is none. Played one after the other (corbelnib_move) these are the chain. Refusals: 12 to 15, then
 * 21 if `record` has fewer than 5 bytes. */
uint8_t corbelnib_safe(const uint8_t *board, size_t board_length, uint8_t *record, size_t record_length, size_t *count);

/* Tells in `*code` the card on top of a column, 0 to 7, or in a cell, 0 to 3: its code, or 255 for none. Refusals: 12 to 15, then 30 for
 * a column or cell that is none. */
uint8_t corbelnib_top(const uint8_t *board, size_t board_length, size_t column, uint8_t *code);
uint8_t corbelnib_cell(const uint8_t *board, size_t board_length, size_t cell, uint8_t *code);

/* Tells in `*count` how many cards of a suit are home (0 clubs, 1 diamonds, 2 hearts, 3 spades), so that the top card has that value.
 * Refusals: 12 to 15, then 30 for a suit that is none. */
uint8_t corbelnib_home(const uint8_t *board, size_t board_length, size_t suit, size_t *count);

/* Tells in `*count` how many cards at most may go to a column at once, by the empty cells and columns alone. Refusals: 12 to 15, then 30
 * for a column that is none. */
uint8_t corbelnib_most(const uint8_t *board, size_t board_length, size_t column, size_t *count);

/* Tells in `*won` 1 if all 52 cards are home, else 0. Refusals: 12 to 15. */
uint8_t corbelnib_won(const uint8_t *board, size_t board_length, uint8_t *won);

/* Writes the seven features of a board to the start of `features`: cards home, moves home at once, blocked low cards,
 * imbalance of the foundations, cells used, empty columns, longest run; elements beyond stay. Refusals: 12 to 15, then 21 if
 * `features` has fewer than 7 elements. */
uint8_t corbelnib_features(const uint8_t *board, size_t board_length, uint64_t *features, size_t features_length);

/* Tells the two scores of a board: the heuristic (less is nearer to the end) and the progress score (more is nearer).
 * Refusals: 12 to 15. */
uint8_t corbelnib_scores(const uint8_t *board, size_t board_length, int64_t *heuristic, int64_t *progress);

/* Tells the signature of a board, the same for boards that differ only in the order of their cells or columns. Refusals: 12
 * to 15. */
uint8_t corbelnib_signature(const uint8_t *board, size_t board_length, uint64_t *signature);

/* Writes the progress token, as f:51|i:1|u:0|e:7|r:1|b:0|m:1, to the start of `text`, with no 0 behind it, and tells in
 * `*count` how many bytes it has; bytes beyond stay. Refusals: 12 to 15, then 21 if `text` has fewer than 32 bytes. */
uint8_t corbelnib_token(const uint8_t *board, size_t board_length, uint8_t *text, size_t text_length, size_t *count);

/* The version of the library that was linked: CORBELNIB_VERSION_NUMBER of the header that belongs to it. Two controllers whose numbers differ may
 * answer differently. */
uint32_t corbelnib_version(void);

/* How many nodes scratch parts of these lengths hold: the least of nodes / 3, heap, keys / 2, costs / 2 and 2^32 - 1. */
size_t corbelnib_capacity(size_t nodes_length, size_t heap_length, size_t keys_length, size_t costs_length);

/* Judges a board: looks for a winning line, taking at most `budget` boards from its frontier; `partial` other than 0 allows
 * the line to the best board seen, which ends won (5) or not (1) when the budget is used up. The scratch may hold anything
 * before; earlier bytes affect no answer. A node takes 38 bytes of it, and the parts may have any lengths
 * (corbelnib_capacity). Answers are 0 to 5 and 23 (CORBELNIB_IS_ANSWER).
 *
 * An answer tells in `*pops` how many boards were taken and in `*moves` how many moves the list has (0 where there is none,
 * at most 200), writes the list's moves, five bytes each, to the start of `list` (bytes beyond stay) and leaves every byte of
 * the scratch 0. Two controllers never disagree: on one board no two answers, whatever their budgets and scratch, give two
 * different winning lists, or won and 2 or 4; more budget and scratch keep 0, 2 and 4 as they were, for one value of `partial`: of a
 * search that asks otherwise this says nothing but that a win stays that win. 5 is a best line, as 1 and
 * 2 are: more budget and scratch make 0 of it, 5 with the same list, 23, or, where two boards of the run share a signature, 2
 * with the same list.
 *
 * Clearing the scratch takes its time, however few boards were taken. A table that judges after each touch lends 1 MB (27,594 nodes), not
 * 512: docs/FOR-TABLES.md has what was measured. Refusals, which change nothing: 12 to 15, 20, 21 if `list` has fewer than 1,000 bytes, 22. */
uint8_t corbelnib_judge(const uint8_t *board, size_t board_length, size_t budget, uint8_t partial, uint32_t *nodes,
                        size_t nodes_length, uint64_t *heap, size_t heap_length, uint64_t *keys, size_t keys_length,
                        uint8_t *costs, size_t costs_length, uint8_t *list, size_t list_length, size_t *pops,
                        size_t *moves);

/* Judges the hands of the numbers from `first` to `last`, one after the other, each as corbelnib_judge does with this budget, this
 * scratch and `partial`, and writes the sheet of their figures, 716 words (`enum corbelnib_figure`), to the start of `sheet`; words
 * beyond stay. A hand that runs out of nodes is counted with 23, and the sheet goes on. `first` above `last` is the empty run, whose
 * sheet has its settings and zeros. A sheet leaves every byte of the scratch 0. Two controllers with the same budget, capacity and
 * flag give the same sheet. Refusals, which change nothing: 41 if `first` or `last` is not 1 to 32,000, 20, 21 if `sheet` has fewer
 * than 716 words, 22. */
uint8_t corbelnib_season(size_t first, size_t last, size_t budget, uint8_t partial, uint32_t *nodes, size_t nodes_length,
                         uint64_t *heap, size_t heap_length, uint64_t *keys, size_t keys_length, uint8_t *costs,
                         size_t costs_length, uint64_t *sheet, size_t sheet_length);

/* Adds a sheet to `into`, which then is the sheet over the deals of both. Sheets may come from anywhere; each is examined. Refusals,
 * which change nothing: 47 if either has another length than 716 words, a budget above 1,000,000, answers that do not add up to the
 * deals that it covers, won lengths that do not add up to its wins, a shortest or longest list that is not that of its lengths or
 * names a deal that it does not cover, or more pops than budget times deals; then 45 if the settings differ (a flag is 0, or any
 * other number for yes); then 44 if both cover a deal. `into` and `other` may not be the same memory: to try a sheet on itself, add
 * a copy. */
uint8_t corbelnib_add(uint64_t *into, size_t into_length, const uint64_t *other, size_t other_length);

#ifdef __cplusplus
}
#endif

#endif
