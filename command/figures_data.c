/* What stands on a sheet of figures, for programs. */
#include <stdio.h>
#include <string.h>

#include "emit.h"
#include "figures.h"
#include "version.h"

static size_t word(const struct sheet *sheet, size_t place) {
    return (size_t)sheet->word[place];
}

/* ---- JSON */

/* The deals as runs, each by its first and its last. */
static void json_covers(struct object *object, const struct sheet *sheet) {
    object_member(object, "covers");
    const char *before = "[";
    for (size_t first = 1, last; first <= CORBELNIB_NUMBER; first = last + 1) {
        last = first;
        if (!sheet_covers(sheet, first)) {
            continue;
        }
        while (last < CORBELNIB_NUMBER && sheet_covers(sheet, last + 1)) {
            last++;
        }
        printf("%s[%zu, %zu]", before, first, last);
        before = ", ";
    }
    printf("%s]", *before == '[' ? "[" : "");
}

static void json_answers(struct object *object, const struct sheet *sheet) {
    object_rows(object, "answers");
    for (size_t k = 0; k < ANSWERS; k++) {
        object_row(object);
        printf("{\"answer\": %u, \"meaning\": \"%s\", \"deals\": %zu}", answers[k].number, answers[k].brief,
               word(sheet, CORBELNIB_SHEET_ANSWERS + k));
    }
    object_rows_end(object);
}

static void json_extreme(struct object *object, const char *name, const struct sheet *sheet, size_t place) {
    object_member(object, name);
    printf("{\"moves\": %zu, \"deal\": %zu}", word(sheet, place), word(sheet, place + 1));
}

/* Won lists, by their lengths; those that there are. */
static void json_lists(struct object *object, const struct sheet *sheet) {
    object_rows(object, "lists");
    for (size_t moves = 0; moves < LENGTHS; moves++) {
        if (word(sheet, CORBELNIB_SHEET_LISTS + moves) > 0) {
            object_row(object);
            printf("{\"moves\": %zu, \"deals\": %zu}", moves, word(sheet, CORBELNIB_SHEET_LISTS + moves));
        }
    }
    object_rows_end(object);
}

void figures_json(const char *name, const struct sheet *sheet, bool one_line) {
    struct object object;
    object_open(&object, one_line);
    object_text(&object, "version", version_told());
    object_text(&object, "file", name);
    object_number(&object, "budget", word(sheet, CORBELNIB_SHEET_BUDGET));
    object_number(&object, "capacity", word(sheet, CORBELNIB_SHEET_CAPACITY));
    object_flag(&object, "partial", word(sheet, CORBELNIB_SHEET_FLAG));
    object_number(&object, "deals", deals_on(sheet));
    json_covers(&object, sheet);
    json_answers(&object, sheet);
    object_number(&object, "pops", word(sheet, CORBELNIB_SHEET_POPS));
    if (word(sheet, CORBELNIB_SHEET_ANSWERS) > 0) {
        json_extreme(&object, "shortest", sheet, CORBELNIB_SHEET_SHORTEST);
        json_extreme(&object, "longest", sheet, CORBELNIB_SHEET_LONGEST);
    } else {
        object_text(&object, "shortest", NULL);
        object_text(&object, "longest", NULL);
    }
    json_lists(&object, sheet);
    object_close(&object);
}

/* ---- CSV */

void figures_csv_head(void) {
    printf("file,budget,capacity,partial,deals");
    for (size_t k = 0; k < ANSWERS; k++) {
        printf(",answer_%u", answers[k].number);
    }
    printf(",pops,shortest,shortest_deal,longest,longest_deal\n");
}

/* In quotation marks where it has to be. */
static void csv_text(const char *text) {
    if (!text[strcspn(text, ",\"\r\n")]) {
        printf("%s", text);
        return;
    }
    putchar('"');
    for (; *text; text++) {
        printf(*text == '"' ? "\"\"" : "%c", *text);
    }
    putchar('"');
}

/* Marks that are not there are empty. */
void figures_csv(const char *name, const struct sheet *sheet) {
    csv_text(name);
    printf(",%zu,%zu,%d,%zu", word(sheet, CORBELNIB_SHEET_BUDGET), word(sheet, CORBELNIB_SHEET_CAPACITY),
           word(sheet, CORBELNIB_SHEET_FLAG) != 0, deals_on(sheet));
    for (size_t k = 0; k <= ANSWERS; k++) { /* and the pops, which follow */
        printf(",%zu", word(sheet, CORBELNIB_SHEET_ANSWERS + k));
    }
    for (size_t place = CORBELNIB_SHEET_SHORTEST; place <= CORBELNIB_SHEET_LONGEST_DEAL; place++) {
        if (word(sheet, CORBELNIB_SHEET_ANSWERS) > 0) {
            printf(",%zu", word(sheet, place));
        } else {
            printf(",");
        }
    }
    printf("\n");
}
