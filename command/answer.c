#include "answer.h"

#include <stdio.h>
#include <string.h>

#include "told.h"

bool answer_won(const struct answer *a) {
    return a->told == CORBELNIB_WON;
}

bool answer_exhausted(const struct answer *a) {
    return a->told == CORBELNIB_BEST_EXHAUSTED || a->told == CORBELNIB_EXHAUSTED;
}

bool answer_limit(const struct answer *a) {
    return a->told == CORBELNIB_BEST_AT_LIMIT || a->told == CORBELNIB_LIMIT || a->told == CORBELNIB_BEST_IS_WON;
}

bool answer_no_room(const struct answer *a) {
    return a->told == CORBELNIB_OUT_OF_NODES;
}

bool answer_best(const struct answer *a) {
    return a->told == CORBELNIB_BEST_AT_LIMIT || a->told == CORBELNIB_BEST_EXHAUSTED || a->told == CORBELNIB_BEST_IS_WON;
}

bool answer_open(const struct answer *a) {
    return answer_limit(a) || answer_no_room(a);
}

void say_posting(struct said *said, const struct answer *a) {
    if (answer_won(a) && a->moves == 0) {
        say(said, "won already");
    } else if (answer_won(a)) {
        say(said, "won in ");
        say_count(said, a->moves, "move", "moves");
    } else {
        say(said, answer_exhausted(a) ? "exhausted after " : "open after ");
        say_count(said, a->pops, "board", "boards");
    }
}

static bool expected(const struct json *at, const char *name, const char *what, struct said *why) {
    say(why, "line %zu, column %zu: %s%s%s is expected", at->line, at->column, name ? name : "", name ? ": " : "", what);
    return false;
}

static bool is_number(const struct json *value, uint64_t most) {
    return value && value->kind == JSON_NUMBER && value->whole && !value->negative && value->size <= most;
}

/* The member of a name; where there is none, the object is where it was expected. */
static bool read_number(const struct json *json, const char *name, size_t *number, struct said *why) {
    const struct json *value = json_member(json, name);
    if (!is_number(value, SIZE_MAX)) {
        return expected(value ? value : json, name, "a whole number", why);
    }
    *number = (size_t)value->size;
    return true;
}

static bool read_version(const struct json *json, struct answer *answer, struct said *why) {
    const struct json *value = json_member(json, "version");
    if (!value || value->kind != JSON_TEXT) {
        return expected(value ? value : json, "version", "a text", why);
    }
    snprintf(answer->version, sizeof answer->version, "%s", value->text);
    return true;
}

/* The number of a hand, or null where the board came in another way. */
static bool read_hand(const struct json *json, struct answer *answer, struct said *why) {
    const struct json *value = json_member(json, "hand");
    if (value && value->kind == JSON_NULL) {
        return true;
    }
    if (!is_number(value, CORBELNIB_NUMBER) || value->size == 0) {
        return expected(value ? value : json, "hand", "null or a hand's number, 1 to 32,000,", why);
    }
    answer->hand = (size_t)value->size;
    return true;
}

static int hex_digit(char c) {
    static const char digits[] = "0123456789abcdef";
    const char *found = c ? strchr(digits, c) : NULL;
    return found ? (int)(found - digits) : -1;
}

static bool read_board(const struct json *json, struct answer *answer, struct said *why) {
    const struct json *value = json_member(json, "board");
    if (!value || value->kind != JSON_TEXT || value->length != (size_t)2 * CORBELNIB_BOARD) {
        return expected(value ? value : json, "board", "the 432 bytes of a board, each in two hexadecimal digits,", why);
    }
    for (size_t i = 0; i < CORBELNIB_BOARD; i++) {
        int high = hex_digit(value->text[2 * i]), low = hex_digit(value->text[2 * i + 1]);
        if (high < 0 || low < 0) {
            struct json at = *value;
            at.column += 1 + 2 * i;
            return expected(&at, "board", "a byte in two hexadecimal digits, a to f in lower case,", why);
        }
        answer->board[i] = (uint8_t)(high * 16 + low);
    }
    return true;
}

static bool read_record(const struct json *move, uint8_t *record, struct said *why) {
    const struct json *value = json_member(move, "record");
    const struct json *byte = value && value->kind == JSON_ARRAY ? value->child : NULL;
    for (size_t i = 0; i < CORBELNIB_MOVE; i++, byte = byte->next) {
        if (!is_number(byte, UINT8_MAX)) {
            return expected(byte ? byte : value ? value : move, "record", "an array of five numbers, 0 to 255,", why);
        }
        record[i] = (uint8_t)byte->size;
    }
    return byte ? expected(byte, "record", "the end of the array after five numbers", why) : true;
}

static bool read_list(const struct json *json, struct answer *answer, struct said *why) {
    const struct json *list = json_member(json, "list");
    if (!list || list->kind != JSON_ARRAY) {
        return expected(list ? list : json, "list", "an array of moves", why);
    }
    for (const struct json *move = list->child; move; move = move->next) {
        if (answer->moves == CORBELNIB_LIST / CORBELNIB_MOVE) {
            return expected(move, "list", "no move after the 200th", why);
        }
        if (!read_record(move, answer->list + CORBELNIB_MOVE * answer->moves, why)) {
            return false;
        }
        answer->moves++;
    }
    return true;
}

static bool read_told(const struct json *json, struct answer *answer, struct said *why) {
    const struct json *value = json_member(json, "answer"), *partial = json_member(json, "partial");
    if (!is_number(value, UINT8_MAX) || !CORBELNIB_IS_ANSWER(value->size)) {
        return expected(value ? value : json, "answer", "an answer of the judge, 0 to 5 or 23,", why);
    }
    if (!partial || (partial->kind != JSON_TRUE && partial->kind != JSON_FALSE)) {
        return expected(partial ? partial : json, "partial", "true or false", why);
    }
    answer->told = (uint8_t)value->size;
    answer->partial = partial->kind == JSON_TRUE;
    return true;
}

bool answer_read(const struct json *json, struct answer *answer, struct said *why) {
    const struct json *refused = json_member(json, "refused");
    if (json->kind != JSON_OBJECT) {
        return expected(json, NULL, "an object, as `corbelnib judge --json` writes it,", why);
    }
    if (refused) {
        say(why, "this is a refusal and no answer");
        if (is_number(refused, UINT8_MAX)) {
            say(why, ": %s (%u)", refusal_words((uint8_t)refused->size), (unsigned)refused->size);
        }
        return false;
    }
    return read_version(json, answer, why) && read_hand(json, answer, why) && read_board(json, answer, why) &&
           read_number(json, "budget", &answer->budget, why) &&
           read_number(json, "capacity", &answer->capacity, why) && read_told(json, answer, why) &&
           read_number(json, "pops", &answer->pops, why) && read_list(json, answer, why);
}
