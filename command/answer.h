/* A controller's answer as `corbelnib judge --json` writes it, read and checked by itself. */
#ifndef COMMAND_ANSWER_H
#define COMMAND_ANSWER_H

#include <stdbool.h>
#include <stddef.h>
#include <stdint.h>

#include "corbelnib.h"
#include "json.h"
#include "say.h"

#define VERSION_MOST 24

struct answer {
    const char *name;           /* of the file */
    char version[VERSION_MOST]; /* that it tells, cut off where it is longer */
    size_t hand;                /* that it tells, or 0 */
    uint8_t board[CORBELNIB_BOARD];
    uint8_t told;
    size_t budget, capacity, pops, moves;
    bool partial;
    uint8_t list[CORBELNIB_LIST];
    bool placed;                   /* the board is one, and that of its hand and signature, .. */
    bool played;                   /* .. the list can be played on it, .. */
    bool wins;                     /* .. is called won and ends won, which stands whatever else is wrong: all this once it is checked */
    uint8_t last[CORBELNIB_BOARD]; /* the board after the list that was played */
    int64_t progress;              /* of that board */
};

/* What an answer is. */
bool answer_won(const struct answer *answer);
bool answer_exhausted(const struct answer *answer); /* 2, 4 */
bool answer_limit(const struct answer *answer);     /* 1, 3, 5 */
bool answer_no_room(const struct answer *answer);   /* 23 */
bool answer_open(const struct answer *answer);      /* 1, 3, 5, 23 */
bool answer_best(const struct answer *answer);      /* a best line: 1, 2, 5 */

/* What a desk posts of it, the same words for the limit and for 23: "won in 98 moves", "exhausted after 2 boards", "open after 50 boards". */
void say_posting(struct said *said, const struct answer *answer);

/* Reads the members that an answer needs: version, hand, board, budget, capacity, partial, answer, pops, list. False if one is not there or is not of
 * its kind; `why` then says where and what was expected. */
bool answer_read(const struct json *json, struct answer *answer, struct said *why);

/* Whether the library can have given this answer to this board; `why` says why not. What else the JSON tells of it (input, signature,
 * memory, meaning, moves, line, final, the words of each move) is held against it. */
bool answer_check(const struct json *json, struct answer *answer, struct said *why);

#endif
