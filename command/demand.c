/* After so many turns every search of a board stands at the same state, whatever its settings (T4). So two answers tell of one run:
 *
 *   won with p pops        the p-th board taken is won
 *   exhausted with p pops  after p boards nothing waits
 *   limit with p pops      none of the first p is won, and something waits after them
 *   23 with p pops         none of the first p is won, and the children of the p-th do not fit into its capacity
 *
 * and the best line after p boards is the same in all. Each rule below is one way in which two answers can contradict that. */
#include "demand.h"

#include <string.h>

enum { FIRST, SECOND, EITHER };

static bool broken(struct said *why, const char *what) {
    say(why, "%s", what);
    return false;
}

static bool same_list(const struct answer *x, const struct answer *y) {
    return x->moves == y->moves && memcmp(x->list, y->list, CORBELNIB_MOVE * x->moves) == 0;
}

static bool same_settings(const struct answer *x, const struct answer *y) {
    return x->budget == y->budget && x->capacity == y->capacity && x->partial == y->partial;
}

static bool same_answer(const struct answer *x, const struct answer *y) {
    return x->told == y->told && x->pops == y->pops && same_list(x, y);
}

/* Boards whose children were all made and found room. */
static size_t opened(const struct answer *a) {
    bool whole = answer_exhausted(a) || answer_limit(a);
    return whole || a->pops == 0 ? a->pops : a->pops - 1;
}

static bool alike(const struct answer *x, const struct answer *y, struct said *why) {
    return !same_settings(x, y) || same_answer(x, y) || broken(why, "with the same settings they give different answers");
}

static bool one_win(const struct answer *x, const struct answer *y, struct said *why) {
    if (!answer_won(x) || !answer_won(y)) {
        return true;
    }
    if (!same_list(x, y)) {
        return broken(why, "they hand over two different winning lists");
    }
    return x->pops == y->pops || broken(why, "they win by the same list after different numbers of boards");
}

static bool one_end(const struct answer *x, const struct answer *y, struct said *why) {
    if (!answer_exhausted(x) || !answer_exhausted(y)) {
        return true;
    }
    if (x->pops != y->pops) {
        return broken(why, "both say exhausted, after different numbers of boards");
    }
    return x->partial != y->partial || same_answer(x, y) || broken(why, "both say exhausted, with different best lines");
}

static bool won_or_exhausted(const struct answer *x, const struct answer *y, struct said *why) {
    return !(answer_won(x) && answer_exhausted(y)) || broken(why, "one says won, the other exhausted");
}

/* x came to an end at a board that y had taken too before it stopped. */
static bool ended_before(const struct answer *x, const struct answer *y, struct said *why) {
    if (answer_won(x) && (answer_limit(y) || answer_no_room(y)) && y->pops >= x->pops) {
        return broken(why, "one wins by a board that the other took too, and did not call won");
    }
    if (answer_exhausted(x) && answer_limit(y) && y->pops >= x->pops) {
        return broken(why, "one has nothing left to look at where the other went on");
    }
    return !(answer_exhausted(x) && answer_no_room(y) && y->pops > x->pops) ||
           broken(why, "one has nothing left to look at where the other went on");
}

/* x had no room for the children of a board; y had, with no more room. */
static bool no_room(const struct answer *x, const struct answer *y, struct said *why) {
    return !answer_no_room(x) || opened(y) < x->pops || y->capacity > x->capacity ||
           broken(why, "one has no room for boards that find room in the other, whose memory is no larger");
}

/* Both were allowed a best line, and y looked at no fewer boards. */
static bool best_grows(const struct answer *x, const struct answer *y, struct said *why) {
    bool ended = !answer_won(y) && !answer_no_room(y);
    if (!answer_best(x) || !y->partial || !ended || y->pops < x->pops) {
        return true;
    }
    if (!answer_best(y)) {
        return broken(why, "the one that looked further brings no best line, and the other does");
    }
    if (y->progress < x->progress) {
        return broken(why, "the one that looked further brings a worse best line");
    }
    if (y->progress == x->progress && !same_list(x, y)) {
        return broken(why, "they bring different best lines of the same score");
    }
    return x->pops != y->pops || same_list(x, y) || broken(why, "after the same number of boards they bring different best lines");
}

typedef bool rule(const struct answer *x, const struct answer *y, struct said *why);

bool demand_allows(const struct answer *x, const struct answer *y, struct said *why) {
    static rule *const rules[] = {alike, one_win, won_or_exhausted, one_end, ended_before, no_room, best_grows};
    for (size_t i = 0; i < sizeof rules / sizeof *rules; i++) {
        if (!rules[i](x, y, why) || !rules[i](y, x, why)) {
            return false;
        }
    }
    return true;
}

/* Won tells most, then exhausted; the others are open. */
static int worth(const struct answer *a) {
    return answer_won(a) ? 2 : answer_exhausted(a) ? 1 : 0;
}

static int by_worth(const struct answer *better, int which, struct said *why) {
    say(why, answer_won(better) ? "it is won, which stays so whatever else is asked"
                                : "it is exhausted, which stays so whatever else is asked, while the other stopped early");
    return which;
}

/* Two true answers that are won have one list; of two lists that both win, the shorter. */
static int by_moves(const struct answer *x, const struct answer *y, struct said *why) {
    say(why, "both lists win, and its list is the shorter");
    return x->moves < y->moves ? FIRST : SECOND;
}

/* The run is one, so whoever took more boards knows more (T4). */
static int by_boards(const struct answer *x, const struct answer *y, struct said *why) {
    say(why, "both are open, and it looked at more boards");
    return x->pops > y->pops ? FIRST : SECOND;
}

int demand_chooses(const struct answer *x, const struct answer *y, struct said *why) {
    if (worth(x) != worth(y)) {
        bool first = worth(x) > worth(y);
        return by_worth(first ? x : y, first ? FIRST : SECOND, why);
    }
    if (answer_won(x) && x->moves != y->moves) {
        return by_moves(x, y, why);
    }
    if (answer_open(x) && x->pops != y->pops) {
        return by_boards(x, y, why);
    }
    if (answer_best(x) != answer_best(y)) {
        say(why, "both stopped at the same board, and it brings a best line");
        return answer_best(x) ? FIRST : SECOND;
    }
    say(why, same_answer(x, y) ? "they agree in every number and move" : answer_won(x) ? "both lists win" : "both stopped at the same board");
    return EITHER;
}
