/* What each number of `enum corbelnib_told` says to a player or a host: one list, of which the command's words are made and to which
 * the header and the papers are held (tests/papers.sh).
 *
 * Other programs can take it as data: every entry is one line of the form
 *     X(NAME, NUMBER, "brief", "words")    an answer of corbelnib_judge, as a heading and in full
 *     X(NAME, NUMBER, "sentence")          a refusal
 * and 0 stands among the answers alone. */
#ifndef CORBELNIB_SAYS_H
#define CORBELNIB_SAYS_H

#include "corbelnib.h"

#define CORBELNIB_ANSWERS(X) \
    X(WON, 0, "won", "won") \
    X(BEST_AT_LIMIT, 1, "budget used up, a list to the best board", "not won within the budget; the list leads to the best board seen") \
    X(BEST_EXHAUSTED, 2, "exhausted, a list to the best board", "nothing is left to look at and no win was found, which is no proof that there is none; the list leads to the best board seen") \
    X(LIMIT, 3, "budget used up, no list", "not won within the budget") \
    X(EXHAUSTED, 4, "exhausted, no list", "nothing is left to look at and no win was found, which is no proof that there is none") \
    X(BEST_IS_WON, 5, "budget used up, the best list ends won", "not called won within the budget, but the best line ends won") \
    X(OUT_OF_NODES, 23, "out of nodes", "not won before the memory was full")

#define CORBELNIB_REFUSALS(X) \
    X(WRONG_LENGTH, 10, "The image does not have the length that it tells.") \
    X(WRONG_VERSION, 11, "The image is not of version 1.") \
    X(WRONG_SHAPE, 12, "This has not the shape of a board.") \
    X(NO_CARD, 13, "A code is no card's.") \
    X(CARD_TWICE, 14, "A card is on the table twice.") \
    X(CARD_MISSING, 15, "A card is missing from the table.") \
    X(NO_DECK, 16, "A deck has 52 cards.") \
    X(OVER_BUDGET, 20, "The budget is above 1,000,000.") \
    X(LITTLE_ROOM, 21, "Too little room was lent.") \
    X(NO_NODE, 22, "The memory does not hold one board.") \
    X(OUT_OF_RANGE, 30, "There is no such move.") \
    X(WRONG_LIST, 31, "A list has at most 200 moves, and a record five bytes.") \
    X(SOURCE_EMPTY, 33, "There is no card to take.") \
    X(OTHER_CARD, 34, "Another card lies there.") \
    X(TOO_MANY, 35, "There are not that many cards.") \
    X(OVER_LIMIT, 36, "Too many cards at once: empty a cell or a column first.") \
    X(NO_RUN, 37, "These cards are no run: each one lower, red and black in turn.") \
    X(NO_FIT, 38, "The card does not fit on that column.") \
    X(CELL_FULL, 39, "That cell is taken.") \
    X(NOT_NEXT, 40, "Another card of this suit has to go home first.") \
    X(NO_NUMBER, 41, "Hands have the numbers 1 to 32,000.") \
    X(WRONG_TEXT, 42, "This is no line of moves.") \
    X(NOT_WRITABLE, 43, "A card that comes back from home cannot be written.") \
    X(COMMON_DEAL, 44, "A deal is on both sheets.") \
    X(OTHER_SETTINGS, 45, "The sheets have different settings.") \
    X(WRONG_SHEET, 47, "The figures of the sheet do not go together.")

/* The words of a number; NULL if no call hands it back. */
#define CORBELNIB_SAYS_ANSWER(name, number, brief, words) \
    case number: \
        return words;
#define CORBELNIB_SAYS_REFUSAL(name, number, sentence) \
    case number: \
        return sentence;
static inline const char *corbelnib_says(uint8_t told) {
    switch (told) {
        CORBELNIB_ANSWERS(CORBELNIB_SAYS_ANSWER)
        CORBELNIB_REFUSALS(CORBELNIB_SAYS_REFUSAL)
    default:
        return NULL;
    }
}

#endif
