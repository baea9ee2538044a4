/* An answer of the judge, for readers and for programs. */
#ifndef COMMAND_REPORT_H
#define COMMAND_REPORT_H

#include <stdbool.h>

#include "emit.h"
#include "given.h"
#include "lend.h"
#include "show.h"

/* What a reader wants to see beside the answer and its line. */
struct report {
    bool moves, picture;
    bool line; /* alone; the answer goes to standard error */
    struct pen pen;
};

void report_words(const struct given *given, const struct settings *settings, const struct verdict *verdict,
                  const struct report *report);
void report_json(const struct given *given, const struct settings *settings, const struct verdict *verdict, bool one_line);

/* Members of an object (emit.h): version, input, hand, board and signature of a board; a line on paper, null if it cannot be written; its moves,
 * which are played on `board`; and what a last board is. */
void json_given(struct object *object, const struct given *given);
void json_line(struct object *object, const uint8_t *board, const uint8_t *list, size_t moves);
void json_moves(struct object *object, uint8_t *board, const uint8_t *list, size_t moves);
void json_final(struct object *object, const uint8_t *board);

/* A line on paper, ten moves a row. */
void say_folded(struct said *said, const uint8_t *text, size_t length);

/* Whether an answer brings a list. */
bool brings_list(uint8_t answer);

#endif
