#include "fcsolve.h"

#include <string.h>

#include "card.h"
#include "fcboards.h"
#include "utf8.h"

/* A line of what fc-solve printed, and the words on it. */
struct rows {
    const uint8_t *next, *end; /* of the text */
    const uint8_t *at, *line_end;
    size_t line; /* counted from 1 */
};

struct word {
    const uint8_t *at;
    size_t length;
};

static bool next_row(struct rows *r) {
    if (r->next == r->end) {
        return false;
    }
    const uint8_t *newline = memchr(r->next, '\n', (size_t)(r->end - r->next));
    r->at = r->next;
    r->line_end = newline ? newline : r->end;
    r->next = newline ? newline + 1 : r->end;
    r->line++;
    return true;
}

static bool is_gap(uint8_t byte) {
    return byte == ' ' || byte == '\t' || byte == '\r';
}

static struct word next_word(struct rows *r) {
    while (r->at < r->line_end && is_gap(*r->at)) {
        r->at++;
    }
    struct word word = {r->at, 0};
    while (r->at < r->line_end && !is_gap(*r->at)) {
        r->at++;
        word.length++;
    }
    return word;
}

static bool is(struct word word, const char *text) {
    return word.length == strlen(text) && memcmp(word.at, text, word.length) == 0;
}

static bool begins(const struct rows *r, const char *text) {
    size_t length = strlen(text);
    return (size_t)(r->line_end - r->at) >= length && memcmp(r->at, text, length) == 0;
}

/* ---- one move */

static bool is_column(char c) {
    return c >= '1' && c <= '8';
}

static bool is_place(char c) {
    return is_column(c) || (c >= 'a' && c <= 'd');
}

/* 4h, 12, 12v2. */
static bool read_letters(struct word word, struct step *step) {
    static const char digits[] = "0123456789abcdef";
    if (word.length != 2 && word.length != 4) {
        return false;
    }
    step->from = (char)word.at[0];
    step->to = (char)word.at[1];
    step->count = 0;
    if (word.length == 4) {
        const char *digit = word.at[3] ? strchr(digits, word.at[3]) : NULL;
        if (word.at[2] != 'v' || !digit || digit == digits || !is_column(step->from) || !is_column(step->to)) {
            return false;
        }
        step->count = (unsigned)(digit - digits);
    }
    return is_place(step->from) && (is_place(step->to) || step->to == 'h');
}

/* `stack 3` or `freecell 0`, counted from 0, or `the foundations`. */
static bool read_place(struct rows *r, char *place) {
    struct word kind = next_word(r), which = next_word(r);
    if (is(kind, "the") && is(which, "foundations")) {
        *place = 'h';
        return true;
    }
    bool stack = is(kind, "stack"), cell = is(kind, "freecell");
    if ((!stack && !cell) || which.length != 1 || *which.at < '0' || *which.at > '9') {
        return false;
    }
    *place = (char)(*which.at - '0' + (stack ? '1' : 'a'));
    return is_place(*place);
}

/* `a card`, `2 cards`: one or two digits. */
static bool read_count(struct rows *r, unsigned *count) {
    struct word word = next_word(r), cards = next_word(r);
    if (is(word, "a")) {
        *count = 1;
        return is(cards, "card");
    }
    *count = 0;
    for (size_t i = 0; i < word.length; i++) {
        if (i == 2 || word.at[i] < '0' || word.at[i] > '9') {
            return false;
        }
        *count = 10 * *count + (unsigned)(word.at[i] - '0');
    }
    return *count > 0 && is(cards, "cards");
}

/* Behind `Move`. */
static bool read_sentence(struct rows *r, struct step *step) {
    return read_count(r, &step->count) && is(next_word(r), "from") && read_place(r, &step->from) && step->from != 'h' &&
           is(next_word(r), "to") && read_place(r, &step->to) && next_word(r).length == 0;
}

static uint8_t read_record(const uint8_t *board, const struct step *step, uint8_t *record) {
    const uint8_t word[2] = {(uint8_t)step->from, (uint8_t)step->to};
    uint8_t list[CORBELNIB_LIST]; /* no less may be lent */
    size_t count = 0;
    uint8_t told = corbelnib_read_line(board, CORBELNIB_BOARD, word, sizeof word, list, sizeof list, &count);
    memcpy(record, list, told == CORBELNIB_DONE ? CORBELNIB_MOVE : 0);
    return told;
}

uint8_t step_play(uint8_t *board, const struct step *step, uint8_t *record) {
    uint8_t after[CORBELNIB_BOARD], told = CORBELNIB_DONE;
    bool columns = is_column(step->from) && is_column(step->to);
    size_t from = (size_t)(step->from - '1'), to = (size_t)(step->to - '1');
    if (columns && from != to && (step->count > 0 || count_of(board, to) == 0)) {
        size_t count = step->count ? step->count : 1, there = count_of(board, from);
        uint8_t code = count <= there ? card_of(board, from, there - count) : NO_CARD;
        const uint8_t made[CORBELNIB_MOVE] = {CORBELNIB_COLUMN_TO_COLUMN, (uint8_t)from, (uint8_t)to, (uint8_t)count, code};
        memcpy(record, made, sizeof made);
    } else {
        told = read_record(board, step, record);
    }
    if (told == CORBELNIB_DONE) {
        told = corbelnib_move(board, CORBELNIB_BOARD, record, CORBELNIB_MOVE, after, sizeof after);
    }
    if (told == CORBELNIB_DONE) {
        memcpy(board, after, sizeof after);
    }
    return told;
}

/* ---- the frame */

/* A word of a board that is drawn: a card, a foundation, or dashes. Cards are in capitals, moves never. */
static bool is_drawn(struct word word) {
    uint8_t suit, value, code;
    bool capital = word.length > 1 && word.at[word.length - 1] && strchr("CDHS", word.at[word.length - 1]);
    bool card = capital && read_card(word.at, word.length, &code);
    return card || is(word, "--") || is(word, "---") || (word.length > 2 && read_home(word.at, word.length, &suit, &value));
}

/* What stands around the moves; a line of a board too. */
static bool is_frame(struct rows r) {
    static const char *const frame[] = {"This game is solveable", "Total number of states", "This scan generated", "Foundations:", "Freecells:",
                                        ":"};
    for (size_t i = 0; i < sizeof frame / sizeof *frame; i++) {
        if (begins(&r, frame[i])) {
            return true;
        }
    }
    if (fc_divides(r.at, (size_t)(r.line_end - r.at))) {
        return true;
    }
    struct word word = next_word(&r);
    while (word.length && is_drawn(word)) {
        word = next_word(&r);
    }
    return word.length == 0;
}

/* Whether a step that tells no count leads into an empty column, and more than one card could go there. */
static bool could_be_more(const uint8_t *board, const struct step *step) {
    uint8_t record[CORBELNIB_MOVE];
    bool columns = is_column(step->from) && is_column(step->to);
    bool untold = columns && step->count == 0 && count_of(board, (size_t)(step->to - '1')) == 0;
    return untold && read_record(board, step, record) == CORBELNIB_DONE && record[3] > 1;
}

/* Plays one step, unless the line stopped before. False where a list has no room for it. */
static bool take_step(const struct step *step, struct word word, struct played *played, struct refusal *refusal) {
    if (played->told != CORBELNIB_DONE) {
        return true;
    }
    if (CORBELNIB_MOVE * played->moves == CORBELNIB_LIST) {
        refuse(refusal, CORBELNIB_WRONG_LIST);
        say(&refusal->words, " `fc-solve -l gi` finds shorter solutions.");
        return false;
    }
    played->uncounted |= could_be_more(played->last, step);
    played->told = step_play(played->last, step, played->list + CORBELNIB_MOVE * played->moves);
    if (played->told == CORBELNIB_DONE) {
        played->moves++;
    } else {
        say_quoted(&played->bad, word.at, word.length);
    }
    return true;
}

static bool no_move(const struct rows *r, struct word word, struct refusal *refusal) {
    say(&refusal->words, "line %zu: ", r->line);
    say_quoted(&refusal->words, word.at, word.length);
    say(&refusal->words, " is no move as fc-solve writes it, nor anything that it prints around moves");
    return false;
}

/* A row of moves in letters, or one in a sentence. */
static bool read_row(struct rows *r, struct played *played, struct refusal *refusal, size_t *seen) {
    struct step step;
    struct word word = next_word(r), whole = {word.at, (size_t)(r->line_end - word.at)};
    if (is(word, "Move")) {
        ++*seen;
        return read_sentence(r, &step) ? take_step(&step, whole, played, refusal) : no_move(r, whole, refusal);
    }
    if (is(word, "Move:")) {
        word = next_word(r);
    }
    for (; word.length; word = next_word(r)) {
        if (!read_letters(word, &step)) {
            return no_move(r, word, refusal);
        }
        ++*seen;
        if (!take_step(&step, word, played, refusal)) {
            return false;
        }
    }
    return true;
}

static bool unsolved(struct refusal *refusal) {
    say(&refusal->words, "fc-solve did not solve the hand");
    return false;
}

bool fcsolve_play(const uint8_t *board, const uint8_t *text, size_t length, struct played *played, struct refusal *refusal) {
    struct rows r = {.next = text, .end = text + length};
    size_t seen = 0;
    memset(played, 0, sizeof *played);
    memcpy(played->last, board, CORBELNIB_BOARD);
    refusal->number = NO_REFUSAL;
    refusal->words.length = 0;
    while (length > 0 && next_row(&r)) {
        if (begins(&r, "I could not solve this game") || begins(&r, "Iterations count exceeded")) {
            return unsolved(refusal);
        }
        if (!is_frame(r) && !read_row(&r, played, refusal, &seen)) {
            return false;
        }
    }
    return seen > 0 || length == 0 || fcboards_play(board, text, length, played, refusal);
}
