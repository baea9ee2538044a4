/* Whether an answer can have been given: what it tells, held against the rules and against itself (answer.h). */
#include <string.h>

#include "amount.h"
#include "answer.h"
#include "card.h"
#include "layout.h"
#include "moves.h"
#include "told.h"

static bool wrong(struct said *why, const char *what) {
    say(why, "%s", what);
    return false;
}

static bool same_text(const struct json *value, const char *text, size_t length) {
    return value->kind == JSON_TEXT && value->length == length && memcmp(value->text, text, length) == 0;
}

static bool is_count(const struct json *value, size_t count) {
    return value->kind == JSON_NUMBER && value->whole && !value->negative && value->size == count;
}

/* ---- the board */

/* The board of its hand, and of no hand where it tells none. */
static bool check_hand(const struct json *json, const struct answer *a, struct said *why) {
    const struct json *input = json_member(json, "input");
    const char *form = form_name(FORM_HAND);
    uint8_t dealt[CORBELNIB_BOARD];
    if (input && same_text(input, form, strlen(form)) != (a->hand > 0)) {
        return wrong(why, "its input and its hand do not go together");
    }
    if (a->hand == 0) {
        return true;
    }
    corbelnib_number(a->hand, dealt, sizeof dealt);
    if (memcmp(dealt, a->board, sizeof dealt) != 0) {
        say(why, "its board is not that of hand %zu, which it tells", a->hand);
        return false;
    }
    return true;
}

static bool check_board(const struct json *json, const struct answer *a, struct said *why) {
    const struct json *signature = json_member(json, "signature");
    struct said hex = {0};
    uint64_t signed_as = 0;
    uint8_t number = corbelnib_examine(a->board, sizeof a->board);
    if (number) {
        say(why, "its board is refused with %u, and no board that is refused has an answer", number);
        return false;
    }
    corbelnib_signature(a->board, sizeof a->board, &signed_as);
    say(&hex, "%016llx", (unsigned long long)signed_as);
    if (signature && !same_text(signature, hex.text, hex.length)) {
        return wrong(why, "its signature is not that of its board");
    }
    return check_hand(json, a, why);
}

/* ---- settings and numbers */

/* Settings with which the library refuses, so that no answer has them. */
static bool check_settings(const struct json *json, const struct answer *a, struct said *why) {
    const struct json *memory = json_member(json, "memory");
    if (a->budget > CORBELNIB_BUDGET) {
        return wrong(why, "its budget is above 1,000,000, and such a search is refused");
    }
    if (a->capacity == 0) {
        return wrong(why, "its memory does not hold one board, and such a search is refused");
    }
    if (a->capacity > UINT32_MAX) {
        return wrong(why, "its memory holds more boards than a search can count");
    }
    bool holds = !memory || (memory->kind == JSON_NUMBER && memory->whole && !memory->negative && capacity_of(memory->size) == a->capacity);
    return holds || wrong(why, "its memory does not hold as many boards as it tells");
}

static bool check_pops(const struct json *json, const struct answer *a, struct said *why) {
    const struct json *meaning = json_member(json, "meaning");
    const char *words = answer_words(a->told);
    if (meaning && !same_text(meaning, words, strlen(words))) {
        return wrong(why, "its meaning is not that of its number");
    }
    if (a->pops > a->budget) {
        return wrong(why, "more boards were taken than the budget allows");
    }
    return !answer_limit(a) || a->pops == a->budget || wrong(why, "it says that the budget is used up, and it is not");
}

/* ---- the list */

/* Plays the list, whatever the number says of it. Hands back the place of the first move that cannot be played and why it cannot. */
static uint8_t play_list(struct answer *a, size_t *place) {
    int64_t heuristic;
    uint8_t number = corbelnib_replay(a->board, sizeof a->board, a->list, CORBELNIB_MOVE * a->moves, a->last, sizeof a->last, place);
    corbelnib_scores(a->last, sizeof a->last, &heuristic, &a->progress);
    a->played = number == CORBELNIB_DONE;
    a->wins = a->played && answer_won(a) && is_won(a->last);
    return number;
}

static bool check_end(const struct answer *a, struct said *why) {
    int64_t heuristic, start;
    if (answer_won(a) || a->told == CORBELNIB_BEST_IS_WON) {
        return is_won(a->last) || wrong(why, "its list does not end won");
    }
    if (a->told == CORBELNIB_BEST_AT_LIMIT && is_won(a->last)) {
        return wrong(why, "its list ends won, and it does not say so");
    }
    /* a best line leads to a strictly higher score than the start has */
    corbelnib_scores(a->board, sizeof a->board, &heuristic, &start);
    return !answer_best(a) || a->progress > start || wrong(why, "its best line leads to no better board");
}

static bool check_list(const struct answer *a, uint8_t refused, size_t place, struct said *why) {
    bool best = answer_best(a);
    if (best && !a->partial) {
        return wrong(why, "it brings a best line that nobody allowed");
    }
    if (best == (a->moves == 0) && !answer_won(a)) {
        return wrong(why, best ? "it brings an empty best line" : "it brings a list, and its number says that there is none");
    }
    if (refused) {
        say(why, "move %zu of its list cannot be played (%u)", place + 1, refused);
        return false;
    }
    return check_end(a, why);
}

/* ---- the same once more, for readers */

static bool is_score(const struct json *value, int64_t score) {
    uint64_t size = score < 0 ? (uint64_t)-score : (uint64_t)score;
    return value->kind == JSON_NUMBER && value->whole && value->size == size && (size == 0 || value->negative == (score < 0));
}

/* The board after the list, null where there is none. */
static bool check_final(const struct json *json, const struct answer *a, struct said *why) {
    const struct json *final = json_member(json, "final");
    bool listed = answer_won(a) || answer_best(a);
    if (!final || (final->kind == JSON_NULL && !listed)) {
        return true;
    }
    if (final->kind != JSON_OBJECT || !listed) {
        return wrong(why, "it does not tell of the last board where it has one, or tells of one where it has none");
    }
    const struct json *won = json_member(final, "won"), *progress = json_member(final, "progress"), *token = json_member(final, "token");
    if (won && won->kind != (is_won(a->last) ? JSON_TRUE : JSON_FALSE)) {
        return wrong(why, "what it says of the last board (won) is not so");
    }
    if (progress && !is_score(progress, a->progress)) {
        return wrong(why, "what it says of the last board (progress) is not so");
    }
    uint8_t text[CORBELNIB_TOKEN];
    size_t length = 0;
    corbelnib_token(a->last, sizeof a->last, text, sizeof text, &length);
    return !token || same_text(token, (const char *)text, length) || wrong(why, "what it says of the last board (token) is not so");
}

static bool check_line(const struct json *json, const struct answer *a, struct said *why) {
    const struct json *moves = json_member(json, "moves"), *line = json_member(json, "line");
    if (moves && !is_count(moves, a->moves)) {
        return wrong(why, "its number of moves is not that of its list");
    }
    uint8_t text[CORBELNIB_TEXT];
    size_t length = 0;
    uint8_t refused = corbelnib_write_line(a->board, sizeof a->board, a->list, CORBELNIB_MOVE * a->moves, text, sizeof text, &length);
    bool written = !refused && (answer_won(a) || answer_best(a));
    return !line || (written ? same_text(line, (const char *)text, length) : line->kind == JSON_NULL) ||
           wrong(why, "its line is not that of its list");
}

/* Each move in words and on paper. */
static bool check_moves(const struct json *json, const struct answer *a, struct said *why) {
    const struct json *list = json_member(json, "list"), *move = list ? list->child : NULL;
    uint8_t board[CORBELNIB_BOARD];
    memcpy(board, a->board, sizeof board);
    for (size_t i = 0; move && i < a->moves; i++, move = move->next) {
        const struct json *words = json_member(move, "words"), *paper = json_member(move, "paper");
        const uint8_t *record = a->list + CORBELNIB_MOVE * i;
        struct said said = {0};
        char text[PAPER_MOST];
        bool written = paper_move(board, record, text);
        say_move(&said, board, record);
        play_move(board, record);
        if ((words && !same_text(words, said.text, said.length)) ||
            (paper && !(written ? same_text(paper, text, strlen(text)) : paper->kind == JSON_NULL))) {
            say(why, "what it says of move %zu is not so", i + 1);
            return false;
        }
    }
    return true;
}

bool answer_check(const struct json *json, struct answer *a, struct said *why) {
    size_t place = 0;
    a->placed = check_board(json, a, why);
    if (!a->placed) {
        return false;
    }
    uint8_t refused = play_list(a, &place);
    return check_settings(json, a, why) && check_pops(json, a, why) && check_list(a, refused, place, why) && check_line(json, a, why) &&
           check_final(json, a, why) && check_moves(json, a, why);
}
