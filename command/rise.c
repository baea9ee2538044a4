#include "rise.h"

#include <string.h>

#include "amount.h"

/* The first step's boards, and room for so many nodes a board; most hands need two. Tests begin with less, and so take more steps. */
#ifndef BOARDS_FIRST
#define BOARDS_FIRST 1000
#define NODES_FIRST 4
#endif

/* A step that was too small is followed by one with so many times the boards, or the nodes a board. */
#define STEP 4

static size_t lesser(size_t a, size_t b) {
    return a < b ? a : b;
}

static bool at_limit(uint8_t told) {
    return told == CORBELNIB_BEST_AT_LIMIT || told == CORBELNIB_LIMIT || told == CORBELNIB_BEST_IS_WON;
}

/* Whether what was said with these settings is what those asked for say (rise.h). */
static bool stays(uint8_t told, const struct settings *now, const struct settings *asked) {
    if (at_limit(told)) {
        return now->budget == asked->budget;
    }
    return told != CORBELNIB_OUT_OF_NODES || now->capacity == asked->capacity;
}

/* A search without room brings no list: the best line is then that of an earlier step. */
static void learn(struct risen *risen, const struct verdict *verdict) {
    risen->boards = verdict->pops > risen->boards ? verdict->pops : risen->boards;
    if (verdict->moves > 0) {
        risen->moves = verdict->moves;
        memcpy(risen->list, verdict->list, sizeof risen->list);
    }
}

static bool judge_once(const uint8_t *board, const struct settings *now, struct verdict *verdict, size_t *lacking) {
    struct scratch scratch;
    if (!lend(&scratch, now->capacity)) {
        *lacking = now->capacity > SIZE_MAX / NODE_BYTES ? SIZE_MAX : NODE_BYTES * now->capacity;
        return false;
    }
    judge_with(board, now, &scratch, verdict);
    take_back(&scratch);
    return true;
}

static bool rise(const uint8_t *board, const struct settings *asked, struct witness *witness, struct verdict *verdict, size_t *lacking) {
    struct risen risen = {0};
    size_t boards = BOARDS_FIRST, nodes = NODES_FIRST;
    for (;;) {
        struct settings now = {.budget = lesser(boards, asked->budget), .capacity = lesser(nodes * boards, asked->capacity), .partial = true};
        if (witness) {
            witness->tell(witness, &risen);
        }
        if (!judge_once(board, &now, verdict, lacking)) {
            return false;
        }
        if (stays(verdict->told, &now, asked)) {
            return true;
        }
        learn(&risen, verdict);
        boards *= at_limit(verdict->told) ? STEP : 1;
        nodes *= at_limit(verdict->told) ? 1 : STEP;
    }
}

bool judge_rising(const uint8_t *board, const struct settings *asked, struct witness *witness, struct verdict *verdict, size_t *lacking) {
    if (asked->budget > CORBELNIB_BUDGET || asked->capacity == 0) {
        /* the library says why this is refused, and needs no memory for that */
        struct settings refused = *asked;
        refused.capacity = lesser(asked->capacity, 1);
        return judge_once(board, &refused, verdict, lacking);
    }
    if (!rise(board, asked, witness, verdict, lacking)) {
        return false;
    }
    if (!asked->partial) {
        leave_line_out(verdict);
    }
    return true;
}
