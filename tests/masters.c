/* Answers of the library itself, held to demand 3 two by two: `corbelnib agree` must never call a true pair impossible. And each is
 * what a search says that rises to its settings (command/rise.h), here from one board and one node, so that it takes many steps.
 *   masters HANDS STEPS
 * Hands 1 to HANDS, of each the board after some random moves, and those near the end of its winning line, are judged with many budgets,
 * memories and flags; every two answers to one board are compared. Prints how often each pair of answers was met; a pair that is called
 * impossible is printed and fails. */
#include <stdio.h>
#include <stdlib.h>
#include <string.h>

#include "../command/answer.h"
#include "../command/demand.h"
#include "../command/lend.h"
#include "../command/rise.h"

static const size_t budgets[] = {0, 1, 2, 3, 7, 20, 60, 150, 400, 2000};
static const size_t rooms[] = {1, 2, 5, 30, 100, 500, 3000, 20000};

#define BUDGETS (sizeof budgets / sizeof *budgets)
#define ROOMS (sizeof rooms / sizeof *rooms)
#define FLAGS 2
#define ASKED (BUDGETS * ROOMS * FLAGS)
#define TOLD_MOST 24
#define ENDS 25

static size_t met[TOLD_MOST][TOLD_MOST];
static size_t boards, failed;

/* The published generator of docs/SCOPE.md is good enough for walks. */
static unsigned drawn(unsigned *state, unsigned below) {
    *state = (214013 * *state + 2531011) % 2147483648u;
    return *state / 65536 % below;
}

static void walk(uint8_t *board, unsigned *state, size_t steps) {
    for (size_t i = 0; i < steps; i++) {
        uint8_t records[CORBELNIB_RECORDS], after[CORBELNIB_BOARD];
        size_t count = 0;
        corbelnib_candidates(board, CORBELNIB_BOARD, records, sizeof records, &count);
        if (count == 0) {
            return;
        }
        /* the better half, so that walks come near an end */
        size_t place = drawn(state, (unsigned)(count + 1) / 2);
        corbelnib_move(board, CORBELNIB_BOARD, records + CORBELNIB_MOVE * place, CORBELNIB_MOVE, after, sizeof after);
        memcpy(board, after, sizeof after);
    }
}

static void rise(const uint8_t *board, const struct settings *settings, const struct verdict *verdict) {
    struct verdict risen;
    size_t lacking;
    if (!judge_rising(board, settings, NULL, &risen, &lacking)) {
        exit(2);
    }
    if (risen.told != verdict->told || risen.pops != verdict->pops || risen.moves != verdict->moves ||
        memcmp(risen.list, verdict->list, sizeof risen.list) != 0) {
        printf("budget %zu, room %zu, partial %d: %u after %zu, and %u after %zu where it rises\n", settings->budget, settings->capacity,
               settings->partial, verdict->told, verdict->pops, risen.told, risen.pops);
        failed++;
    }
}

static void ask(const uint8_t *board, struct answer *answer, size_t budget, size_t room, bool partial) {
    struct settings settings = {budget, 0, room, partial};
    struct scratch scratch;
    struct verdict verdict;
    const struct json nothing_else = {.kind = JSON_OBJECT};
    struct said why = {0};
    if (!lend(&scratch, room)) {
        exit(2);
    }
    judge_with(board, &settings, &scratch, &verdict);
    take_back(&scratch);
    rise(board, &settings, &verdict);
    memset(answer, 0, sizeof *answer);
    memcpy(answer->board, board, sizeof answer->board);
    memcpy(answer->list, verdict.list, sizeof answer->list);
    answer->budget = budget;
    answer->capacity = room;
    answer->partial = partial;
    answer->told = verdict.told;
    answer->pops = verdict.pops;
    answer->moves = verdict.moves;
    if (!answer_check(&nothing_else, answer, &why)) {
        printf("budget %zu, room %zu, partial %d: %u: %s\n", budget, room, partial, answer->told, why.text);
        failed++;
    }
}

static void compare(const struct answer *x, const struct answer *y) {
    struct said why = {0};
    met[x->told][y->told]++;
    if (!demand_allows(x, y, &why)) {
        printf("%u at %zu, %zu, %d beside %u at %zu, %zu, %d: %s\n", x->told, x->budget, x->capacity, x->partial, y->told, y->budget,
               y->capacity, y->partial, why.text);
        failed++;
    }
    if (demand_chooses(x, y, &why) > FLAGS) {
        failed++;
    }
}

static void try_board(const uint8_t *board) {
    static struct answer answers[ASKED];
    size_t asked = 0;
    boards++;
    for (size_t b = 0; b < BUDGETS; b++) {
        for (size_t r = 0; r < ROOMS; r++) {
            for (int flag = 0; flag < FLAGS; flag++) {
                ask(board, &answers[asked++], budgets[b], rooms[r], flag);
            }
        }
    }
    for (size_t i = 0; i < asked; i++) {
        for (size_t j = 0; j < asked; j++) {
            compare(&answers[i], &answers[j]);
        }
    }
}

/* Boards a few moves before a win: there a best line can end won before the win is called. */
static void try_ends(const struct answer *won) {
    for (size_t left = 1; left <= ENDS && left <= won->moves; left++) {
        uint8_t board[CORBELNIB_BOARD];
        size_t played;
        corbelnib_replay(won->board, CORBELNIB_BOARD, won->list, CORBELNIB_MOVE * (won->moves - left), board, sizeof board, &played);
        try_board(board);
    }
}

static void try_hand(size_t hand, size_t steps) {
    static unsigned state = 1;
    uint8_t board[CORBELNIB_BOARD];
    struct answer answer;
    corbelnib_number(hand, board, sizeof board);
    try_board(board);
    ask(board, &answer, budgets[BUDGETS - 1], rooms[ROOMS - 1], false);
    if (answer_won(&answer)) {
        try_ends(&answer);
    }
    walk(board, &state, drawn(&state, (unsigned)steps) + 1);
    try_board(board);
}

static void print_met(void) {
    for (int x = 0; x < TOLD_MOST; x++) {
        for (int y = 0; y < TOLD_MOST; y++) {
            if (met[x][y]) {
                printf("%2d beside %2d: %zu\n", x, y, met[x][y]);
            }
        }
    }
}

int main(int argc, char **argv) {
    if (argc != 3) {
        fprintf(stderr, "usage: %s HANDS STEPS\n", argv[0]);
        return 64;
    }
    size_t hands = strtoul(argv[1], NULL, 10), steps = strtoul(argv[2], NULL, 10);
    for (size_t hand = 1; hand <= hands; hand++) {
        try_hand(hand, steps);
    }
    print_met();
    printf("%zu boards, %zu failed\n", boards, failed);
    return failed ? 1 : 0;
}
