#include "figures.h"

#include <stdio.h>

#include "corbelnib_says.h"
#include "say.h"
#include "version.h"

#define COLUMNS 80
#define INDENT 12
#define MARKS 58 /* for the most */

#define BRIEFLY(name, number, brief, words) {number, brief},
const struct answered answers[ANSWERS] = {CORBELNIB_ANSWERS(BRIEFLY)};

size_t deals_on(const struct sheet *sheet) {
    size_t deals = 0;
    for (size_t deal = 1; deal <= CORBELNIB_NUMBER; deal++) {
        deals += sheet_covers(sheet, deal);
    }
    return deals;
}

/* The deals as runs. */
static void show_deals(const struct sheet *sheet, size_t deals) {
    int column = printf("  deals     %s", grouped(deals).text);
    const char *between = ": ";
    for (size_t first = 1, last; first <= CORBELNIB_NUMBER; first = last + 1) {
        last = first;
        if (!sheet_covers(sheet, first)) {
            continue;
        }
        while (last < CORBELNIB_NUMBER && sheet_covers(sheet, last + 1)) {
            last++;
        }
        char run[40];
        int length = snprintf(run, sizeof run, last > first ? "%zu-%zu" : "%zu", first, last);
        if (column + length + 3 > COLUMNS) {
            printf(",\n%*s", INDENT, "");
            column = INDENT;
        } else {
            column += printf("%s", between);
        }
        column += printf("%s", run);
        between = ", ";
    }
    printf("\n");
}

static void show_answers(const struct sheet *sheet, size_t deals) {
    printf("\n  answer                                         deals\n");
    for (size_t k = 0; k < ANSWERS; k++) {
        uint64_t count = sheet->word[CORBELNIB_SHEET_ANSWERS + k];
        printf("  %2u  %-40s%8s", answers[k].number, answers[k].brief, grouped(count).text);
        if (deals > 0) {
            printf("  %5.1f %%", 100.0 * (double)count / (double)deals);
        }
        printf("\n");
    }
}

/* The length of the won list at a place, the shortest being at 0. */
static size_t length_at(const struct sheet *sheet, uint64_t place) {
    size_t moves = 0;
    for (uint64_t before = sheet->word[CORBELNIB_SHEET_LISTS]; before <= place && moves + 1 < LENGTHS;) {
        before += sheet->word[CORBELNIB_SHEET_LISTS + ++moves];
    }
    return moves;
}

static void show_lengths(const struct sheet *sheet, uint64_t wins) {
    if (wins == 0) {
        printf("  won lists none: no shortest, no longest\n");
        return;
    }
    uint64_t all = 0;
    for (size_t m = 0; m < LENGTHS; m++) {
        all += m * sheet->word[CORBELNIB_SHEET_LISTS + m];
    }
    size_t middle = length_at(sheet, (wins - 1) / 2) + length_at(sheet, wins / 2);
    printf("  shortest  %3llu moves, deal %llu\n", (unsigned long long)sheet->word[CORBELNIB_SHEET_SHORTEST],
           (unsigned long long)sheet->word[CORBELNIB_SHEET_SHORTEST_DEAL]);
    printf("  longest   %3llu moves, deal %llu\n", (unsigned long long)sheet->word[CORBELNIB_SHEET_LONGEST],
           (unsigned long long)sheet->word[CORBELNIB_SHEET_LONGEST_DEAL]);
    printf("  mean      %5.1f\n  median    %3zu%s\n", (double)all / (double)wins, middle / 2, middle % 2 ? ".5" : "");
}

/* Won lists of some lengths together. */
static uint64_t lists_in(const struct sheet *sheet, size_t from, size_t width) {
    uint64_t count = 0;
    for (size_t m = from; m < from + width && m < LENGTHS; m++) {
        count += sheet->word[CORBELNIB_SHEET_LISTS + m];
    }
    return count;
}

/* A line for so many lengths that there are at most 21 lines. */
static void show_histogram(const struct sheet *sheet) {
    static const size_t widths[] = {1, 2, 5, 10};
    size_t shortest = (size_t)sheet->word[CORBELNIB_SHEET_SHORTEST], longest = (size_t)sheet->word[CORBELNIB_SHEET_LONGEST];
    size_t which = 0;
    while (widths[which] < 10 && longest / widths[which] - shortest / widths[which] >= 21) {
        which++;
    }
    size_t width = widths[which], start = shortest / width * width;
    uint64_t most = 0;
    for (size_t from = start; from <= longest; from += width) {
        uint64_t count = lists_in(sheet, from, width);
        most = count > most ? count : most;
    }
    printf("\n  moves     won lists\n");
    for (size_t from = start; from <= longest; from += width) {
        uint64_t count = lists_in(sheet, from, width);
        size_t last = from + width - 1 < LENGTHS ? from + width - 1 : LENGTHS - 1;
        char moves[24];
        snprintf(moves, sizeof moves, last > from ? "%3zu-%zu" : "%3zu", from, last);
        printf("  %-8s%8s%s", moves, grouped(count).text, count > 0 ? "  " : "");
        /* one mark at least where there is a list */
        for (uint64_t mark = 0; mark < (MARKS * count + most - 1) / most; mark++) {
            putchar('#');
        }
        printf("\n");
    }
}

void figures_show(const struct sheet *sheet) {
    size_t deals = deals_on(sheet);
    uint64_t wins = sheet->word[CORBELNIB_SHEET_ANSWERS], pops = sheet->word[CORBELNIB_SHEET_POPS];
    printf("%s", is_proved() ? "" : "  NOT PROVED\n");
    printf("  settings  budget %s, %s nodes, %s\n", grouped(sheet->word[CORBELNIB_SHEET_BUDGET]).text,
           grouped(sheet->word[CORBELNIB_SHEET_CAPACITY]).text, sheet->word[CORBELNIB_SHEET_FLAG] ? "partial lists" : "no partial lists");
    show_deals(sheet, deals);
    show_answers(sheet, deals);
    printf("\n  pops      %s", grouped(pops).text);
    if (deals > 0) {
        printf(", %s a deal", grouped((pops + deals / 2) / deals).text);
    }
    printf("\n");
    show_lengths(sheet, wins);
    if (wins > 0) {
        show_histogram(sheet);
    }
}
