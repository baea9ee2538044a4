#include "evidence.h"

#include <string.h>

void say_answer_told(struct said *said, const struct answer *a) {
    say(said, "%u, ", a->told);
    if (answer_won(a)) {
        say(said, "won after ");
        say_count(said, a->pops, "board", "boards");
    } else {
        say_posting(said, a);
    }
}

/* What came, as an answer with the settings of the one that was told. */
static void answer_of(const struct answer *told, const struct verdict *came, struct answer *answer) {
    *answer = *told;
    answer->told = came->told;
    answer->pops = came->pops;
    answer->moves = came->moves;
    memcpy(answer->list, came->list, sizeof answer->list);
}

/* The first move in which two lists differ. */
static size_t first_other(const struct answer *x, const struct answer *y) {
    size_t i = 0;
    while (i < x->moves && i < y->moves && memcmp(x->list + CORBELNIB_MOVE * i, y->list + CORBELNIB_MOVE * i, CORBELNIB_MOVE) == 0) {
        i++;
    }
    return i;
}

/* Says where what was told is not what came; nothing if it is. */
static void say_difference(struct said *said, const struct answer *told, const struct answer *came) {
    if (told->told != came->told || told->pops != came->pops) {
        say(said, "it says ");
        say_answer_told(said, told);
        say(said, ", and judged again with its budget and room it is ");
        say_answer_told(said, came);
        return;
    }
    size_t same = first_other(told, came);
    if (same < told->moves || same < came->moves) {
        say(said, "judged again with its budget and room, move %zu of the list is another one", same + 1);
    }
}

bool evidence_find(const struct answer *a, const struct answer *other, const struct evidence *others, struct witness *witness,
                   struct evidence *e, size_t *lacking) {
    struct settings settings = {.budget = a->budget, .capacity = a->capacity, .partial = true};
    struct answer came;
    if (other && others->judged && other->budget == a->budget && other->capacity == a->capacity) {
        e->verdict = others->verdict;
    } else if (!judge_rising(a->board, &settings, witness, &e->verdict, lacking)) {
        return false;
    }
    e->judged = true;
    struct verdict verdict = e->verdict;
    if (!a->partial) {
        leave_line_out(&verdict);
    }
    answer_of(a, &verdict, &came);
    say_difference(&e->broken, a, &came);
    return true;
}
