/* Seasons and sums of sheets through the library, in memory full of rubbish (compare/src/oracle_season.rs writes what has to come back).
 * Input, a line each; lines that begin with # are for readers:
 *   season LABEL FIRST LAST BUDGET FLAG WORDS SHEET  a season with so many words for nodes, onto a sheet
 *   add LABEL SHEET SHEET                            the second sheet added to the first
 *   same LABEL SHEET SHEET                           how many words the two have in common before they differ
 *   put SHEET PLACE WORD                             a word of a sheet made another; writes nothing
 *   copy SHEET SHEET                                 the second sheet copied to the first; writes nothing
 * A sheet is a letter, a to h, or else a number: so many words of rubbish, lent for this line alone.
 * Output, a line each. Of a season: the label, the number, how many words or bytes of the nodes, the waiting, the keys and the costs are not
 * zero after it; how many words of the sheet's room are as they were; the others that are not zero, each with its place. Of a sum: the label,
 * the number, the words of the first sheet that are not zero. */
#include <inttypes.h>
#include <stdio.h>
#include <stdlib.h>
#include <string.h>

#include "corbelnib.h"
#include "oracle.h"

#define RUBBISH (UINT64_MAX - 1)
/* What is lent to a search: room for 2,000 nodes, of which a line may say that fewer words of the nodes are lent. */
#define NODES 2000

static uint64_t sheets[8][CORBELNIB_SHEET];

/* The sheet of a letter; NULL if it is none. */
static uint64_t *sheet_of(const char *name) {
    return name[0] >= 'a' && name[0] <= 'h' && name[1] == 0 ? sheets[name[0] - 'a'] : NULL;
}

static uint64_t *known_sheet(const char *name) {
    uint64_t *sheet = sheet_of(name);
    if (sheet == NULL) {
        wrong_input("no such sheet");
    }
    return sheet;
}

static uint64_t number(const char *text) {
    return strtoull(text, NULL, 10);
}

/* How many elements are not zero. */
static void not_zero(const void *room, size_t count, size_t size) {
    static const uint8_t zeros[8];
    size_t n = 0;
    for (size_t i = 0; i < count; i++) {
        n += memcmp((const uint8_t *)room + i * size, zeros, size) != 0;
    }
    printf(" %zu", n);
}

static void as_it_was(const uint64_t *room, size_t count) {
    size_t n = 0;
    for (size_t i = 0; i < count; i++) {
        n += room[i] == RUBBISH;
    }
    printf(" %zu", n);
}

/* The words that are neither zero nor what lay there before, each with its place, and the end of the line. */
static void say_sheet(const uint64_t *room, size_t count, uint64_t rubbish) {
    for (size_t i = 0; i < count; i++) {
        if (room[i] != 0 && room[i] != rubbish) {
            printf(" %zu:%" PRIu64, i, room[i]);
        }
    }
    puts("");
}

/* A sheet's letter, or room for so many words, full of rubbish. */
static uint64_t *lend_sheet(const char *name, size_t *length) {
    const uint64_t *kept = sheet_of(name);
    *length = kept == NULL ? number(name) : CORBELNIB_SHEET;
    uint64_t *sheet = lend_longs(*length, RUBBISH);
    if (kept != NULL) {
        memcpy(sheet, kept, CORBELNIB_SHEET * sizeof *kept);
    }
    return sheet;
}

/* A sheet that has a letter stays for the lines that follow. */
static void keep(const char *name, const uint64_t *sheet) {
    if (sheet_of(name) != NULL) {
        memcpy(sheet_of(name), sheet, sizeof *sheets);
    }
}

static void season(const char *label, char *const words[]) {
    size_t length;
    uint64_t *sheet = lend_sheet(words[5], &length);
    struct corbelnib_scratch s = {lend_words(at_most(number(words[4]), CORBELNIB_NODES(NODES)), UINT32_MAX), number(words[4]),
                                  lend_longs(CORBELNIB_HEAP(NODES), UINT64_MAX), CORBELNIB_HEAP(NODES),
                                  lend_longs(CORBELNIB_KEYS(NODES), 12345678901234567890u), CORBELNIB_KEYS(NODES),
                                  lend_bytes(CORBELNIB_COSTS(NODES), 1), CORBELNIB_COSTS(NODES)};
    uint8_t came = corbelnib_season(number(words[0]), number(words[1]), number(words[2]), (uint8_t)number(words[3]), CORBELNIB_SCRATCH(s),
                                    sheet, length);
    taken_back();
    printf("%s %d", label, came);
    not_zero(s.nodes, s.nodes_length, sizeof *s.nodes);
    not_zero(s.heap, s.heap_length, sizeof *s.heap);
    not_zero(s.keys, s.keys_length, sizeof *s.keys);
    not_zero(s.costs, s.costs_length, sizeof *s.costs);
    as_it_was(sheet, length);
    say_sheet(sheet, length, RUBBISH);
    keep(words[5], sheet);
}

static void add(const char *label, char *const words[]) {
    static uint64_t rubbish[1000];
    size_t length;
    uint64_t *into = lend_sheet(words[0], &length), *kept = sheet_of(words[1]);
    for (size_t i = 0; i < 1000; i++) {
        rubbish[i] = RUBBISH;
    }
    size_t others = kept == NULL ? at_most(number(words[1]), 1000) : CORBELNIB_SHEET;
    struct bytes other = {(uint8_t *)(kept == NULL ? rubbish : kept), others * sizeof *rubbish};
    uint8_t came = corbelnib_add(into, length, (const uint64_t *)give(other).at, others);
    taken_back();
    printf("%s %d", label, came);
    say_sheet(into, length, 0);
    keep(words[0], into);
}

static void same(const char *label, char *const words[]) {
    const uint64_t *one = known_sheet(words[0]), *other = known_sheet(words[1]);
    size_t k = 0;
    while (k < CORBELNIB_SHEET && one[k] == other[k]) {
        k++;
    }
    printf("%s %zu\n", label, k);
}

static void put(char *const words[]) {
    known_sheet(words[0])[at_most(number(words[1]), CORBELNIB_SHEET - 1)] = number(words[2]);
}

/* A line of the input, whose words are counted. */
static void asked(char *const words[], size_t count) {
    const char *what = words[0];
    if (strcmp(what, "season") == 0 && count == 8) {
        season(words[1], words + 2);
    } else if (strcmp(what, "add") == 0 && count == 4) {
        add(words[1], words + 2);
    } else if (strcmp(what, "same") == 0 && count == 4) {
        same(words[1], words + 2);
    } else if (strcmp(what, "put") == 0 && count == 4) {
        put(words + 1);
    } else if (strcmp(what, "copy") == 0 && count == 3) {
        memcpy(known_sheet(words[1]), known_sheet(words[2]), sizeof *sheets);
    } else {
        wrong_input(what);
    }
}

int main(void) {
    char line[200];
    while (fgets(line, sizeof line, stdin) != NULL) {
        char *words[8];
        size_t count = 0;
        for (char *word = strtok(line, " \n"); word != NULL && line[0] != '#'; word = strtok(NULL, " \n")) {
            words[at_most(count, 7)] = word;
            count++;
        }
        if (count > 0) {
            asked(words, count);
        }
    }
    return 0;
}
