#include "blame_sheet.h"

#include <stdbool.h>

#define ANSWERS 7
#define LENGTHS 201 /* of won lists: 0 to 200 moves */

static uint64_t word_of(const struct sheet *sheet, size_t word) {
    return sheet->word[word];
}

static uint64_t deals_of(const struct sheet *sheet) {
    uint64_t deals = 0;
    for (size_t deal = 1; deal <= CORBELNIB_NUMBER; deal++) {
        deals += sheet_covers(sheet, deal);
    }
    return deals;
}

/* Whether some words add up to a number; damaged ones may be too large to be added. */
static bool adds_up(const struct sheet *sheet, size_t first, size_t count, uint64_t number) {
    uint64_t left = number;
    for (size_t i = 0; i < count; i++) {
        if (word_of(sheet, first + i) > left) {
            return false;
        }
        left -= word_of(sheet, first + i);
    }
    return left == 0;
}

/* The shortest or longest length with a won list; LENGTHS if there is none. */
static size_t end_of(const struct sheet *sheet, bool longest) {
    size_t found = LENGTHS;
    for (size_t moves = 0; moves < LENGTHS; moves++) {
        if (word_of(sheet, CORBELNIB_SHEET_LISTS + moves) > 0 && (longest || found == LENGTHS)) {
            found = moves;
        }
    }
    return found;
}

/* A mark, the shortest or the longest list, and its deal. */
static bool blame_mark(const struct sheet *sheet, size_t at, bool longest, struct said *said) {
    const char *name = longest ? "longest" : "shortest";
    uint64_t moves = word_of(sheet, at), deal = word_of(sheet, at + 1);
    size_t end = end_of(sheet, longest);
    if (end == LENGTHS && (moves || deal)) {
        say(said, " It tells a %s won list, and no deal is won.", name);
    } else if (end < LENGTHS && moves != end) {
        say(said, " By its lengths its %s won list has %zu moves, and it tells %s.", name, end, grouped(moves).text);
    } else if (end < LENGTHS && (deal < 1 || deal > CORBELNIB_NUMBER || !sheet_covers(sheet, (size_t)deal))) {
        say(said, " Its %s won list is that of deal %s, which is not on the sheet.", name, grouped(deal).text);
    } else {
        return false;
    }
    return true;
}

void blame_sheet(const struct sheet *sheet, struct said *said) {
    uint64_t deals = deals_of(sheet), wins = word_of(sheet, CORBELNIB_SHEET_ANSWERS), budget = word_of(sheet, CORBELNIB_SHEET_BUDGET);
    if (budget > CORBELNIB_BUDGET) {
        say(said, " Its budget is above %s.", grouped(CORBELNIB_BUDGET).text);
    } else if (!adds_up(sheet, CORBELNIB_SHEET_ANSWERS, ANSWERS, deals)) {
        say(said, " Its answers do not add up to the deals that it covers, %s.", grouped(deals).text);
    } else if (!adds_up(sheet, CORBELNIB_SHEET_LISTS, LENGTHS, wins)) {
        say(said, " Its lengths of won lists do not add up to its wins, %s.", grouped(wins).text);
    } else if (blame_mark(sheet, CORBELNIB_SHEET_SHORTEST, false, said) || blame_mark(sheet, CORBELNIB_SHEET_LONGEST, true, said)) {
        return;
    } else if (word_of(sheet, CORBELNIB_SHEET_POPS) > budget * deals) {
        say(said, " Its pops are %s, more than its budget allows so many deals, %s.", grouped(word_of(sheet, CORBELNIB_SHEET_POPS)).text,
            grouped(deals).text);
    }
}
