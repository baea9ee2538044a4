/* True answers with one member made wrong: `corbelnib agree` must not let one pass that is not the answer of its settings.
 *   wrong HANDS
 * Hands 1 to HANDS and boards near the ends of their winning lines are judged with some budgets, memories and flags. In each answer one member
 * is changed at a time: the number, the pops, the budget, the room, the flag, a move, the list's end, the hand. What is then let pass has to be
 * what a search says that begins with those settings at once. Prints how many were changed, found broken and still true, and how many the
 * checks that judge nothing again let pass though they are not true; fails if judging again lets one pass. */
#include <stdio.h>
#include <stdlib.h>
#include <string.h>

#include "../command/answer.h"
#include "../command/evidence.h"
#include "../command/lend.h"

static const size_t budgets[] = {0, 1, 3, 20, 50, 150, 600};
static const size_t rooms[] = {1, 2, 30, 200, 1500};

#define BUDGETS (sizeof budgets / sizeof *budgets)
#define ROOMS (sizeof rooms / sizeof *rooms)
#define FLAGS 2
#define ENDS 12

static size_t changed, broken, still_true, unseen, failed;

/* A search at once with an answer's settings. */
static void search(const struct answer *a, struct verdict *verdict) {
    struct settings settings = {.budget = a->budget, .capacity = a->capacity, .partial = a->partial};
    struct scratch scratch;
    if (!lend(&scratch, a->capacity)) {
        exit(2);
    }
    judge_with(a->board, &settings, &scratch, verdict);
    take_back(&scratch);
}

static bool is_true(const struct answer *a) {
    struct verdict verdict;
    search(a, &verdict);
    return verdict.told == a->told && verdict.pops == a->pops && verdict.moves == a->moves &&
           memcmp(verdict.list, a->list, CORBELNIB_MOVE * a->moves) == 0;
}

static void try_answer(struct answer a) {
    const struct json nothing_else = {.kind = JSON_OBJECT};
    struct said why = {0};
    struct evidence found = {0};
    size_t lacking = 0;
    changed++;
    if (!answer_check(&nothing_else, &a, &why)) {
        broken++;
        return;
    }
    if (!evidence_find(&a, NULL, NULL, NULL, &found, &lacking)) {
        exit(2);
    }
    bool passes = found.broken.length == 0, true_one = is_true(&a);
    broken += !passes;
    still_true += passes && true_one;
    unseen += !true_one;
    if (passes != true_one) {
        printf("budget %zu, room %zu, partial %d, %u after %zu: passes %d, is true %d\n", a.budget, a.capacity, a.partial, a.told, a.pops,
               passes, true_one);
        failed++;
    }
}

/* One member with another value, if it is another. */
#define TRY(a, member, value)                 \
    do {                                      \
        struct answer other = *(a);           \
        if (other.member != (value)) {        \
            other.member = (value);           \
            try_answer(other);                \
        }                                     \
    } while (0)

static void change_numbers(const struct answer *a) {
    static const uint8_t told[] = {0, 1, 2, 3, 4, 5, 23};
    for (size_t i = 0; i < sizeof told; i++) {
        TRY(a, told, told[i]);
    }
    TRY(a, pops, a->pops + 1);
    TRY(a, pops, a->pops - (a->pops > 0));
    TRY(a, pops, a->budget);
    TRY(a, budget, a->budget + 1);
    TRY(a, budget, a->budget - (a->budget > 0));
    TRY(a, budget, a->pops);
    TRY(a, budget, 2 * a->budget);
    TRY(a, capacity, a->capacity + 1);
    TRY(a, capacity, a->capacity - 1);
    TRY(a, capacity, 4 * a->capacity);
    TRY(a, partial, !a->partial);
    TRY(a, hand, a->hand + 1);
    TRY(a, moves, a->moves - (a->moves > 0));
    TRY(a, moves, 0);
}

/* A byte of a move one more or less, and a move taken out. */
static void change_list(const struct answer *a) {
    for (size_t i = 0; i < CORBELNIB_MOVE * a->moves; i++) {
        struct answer other = *a;
        other.list[i] = (uint8_t)(other.list[i] + (i % 2 ? 1 : 255));
        try_answer(other);
    }
    for (size_t i = 0; i + 1 < a->moves; i++) {
        struct answer other = *a;
        memmove(other.list + CORBELNIB_MOVE * i, other.list + CORBELNIB_MOVE * (i + 1), CORBELNIB_MOVE * (a->moves - i - 1));
        other.moves--;
        try_answer(other);
    }
}

static void try_board(const uint8_t *board, size_t hand, size_t budget, size_t room, bool partial) {
    struct answer a = {.hand = hand, .budget = budget, .capacity = room, .partial = partial};
    struct verdict verdict;
    memcpy(a.board, board, sizeof a.board);
    search(&a, &verdict);
    a.told = verdict.told;
    a.pops = verdict.pops;
    a.moves = verdict.moves;
    memcpy(a.list, verdict.list, sizeof a.list);
    change_numbers(&a);
    change_list(&a);
}

static void try_settings(const uint8_t *board, size_t hand) {
    for (size_t b = 0; b < BUDGETS; b++) {
        for (size_t r = 0; r < ROOMS; r++) {
            for (int flag = 0; flag < FLAGS; flag++) {
                try_board(board, hand, budgets[b], rooms[r], flag);
            }
        }
    }
}

/* Boards a few moves before a win, where a best line can end won and a frontier can be empty. */
static void try_hand(size_t hand) {
    struct answer a = {.budget = budgets[BUDGETS - 1], .capacity = rooms[ROOMS - 1]};
    struct verdict verdict;
    corbelnib_number(hand, a.board, sizeof a.board);
    try_settings(a.board, hand);
    search(&a, &verdict);
    for (size_t left = 1; verdict.told == CORBELNIB_WON && left <= ENDS && left <= verdict.moves; left++) {
        uint8_t board[CORBELNIB_BOARD];
        size_t played;
        corbelnib_replay(a.board, sizeof a.board, verdict.list, CORBELNIB_MOVE * (verdict.moves - left), board, sizeof board, &played);
        try_settings(board, 0);
    }
}

int main(int argc, char **argv) {
    if (argc != 2) {
        fprintf(stderr, "usage: %s HANDS\n", argv[0]);
        return 64;
    }
    size_t hands = strtoul(argv[1], NULL, 10);
    for (size_t hand = 1; hand <= hands; hand++) {
        try_hand(hand);
    }
    printf("%zu answers with one member changed: %zu found broken, %zu still true; %zu that are not true pass where nothing is judged again\n",
           changed, broken, still_true, unseen);
    printf("%zu failed\n", failed);
    return failed || !changed ? 1 : 0;
}
