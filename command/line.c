#include "line.h"

#include <stdlib.h>
#include <string.h>

#include "frame.h"
#include "utf8.h"

/* The bytes of white space of any kind; 0 if there is none. */
static size_t gap_length(const uint8_t *at, const uint8_t *end) {
    return at < end && (*at == '\n' || *at == '\r') ? 1 : space_length(at, (size_t)(end - at));
}

/* A word of a text: where it begins, and its length, which is 0 behind the last one. */
struct word {
    const uint8_t *at;
    size_t length;
};

static struct word next_word(const uint8_t *at, const uint8_t *end) {
    for (size_t gap; (gap = gap_length(at, end)) > 0;) {
        at += gap;
    }
    struct word word = {at, 0};
    while (at < end && !gap_length(at, end)) {
        at++;
        word.length++;
    }
    return word;
}

static struct word word_of(const uint8_t *text, size_t length, size_t place) {
    const uint8_t *end = text + length;
    struct word word = next_word(text, end);
    while (place-- > 0) {
        word = next_word(word.at + word.length, end);
    }
    return word;
}

/* Line and character of a place, counted from 1. */
static void say_place(struct said *said, const uint8_t *text, const uint8_t *place) {
    size_t line = 1, character = 1;
    for (const uint8_t *at = text; at < place; at++) {
        bool goes_on = (*at & 0xc0) == 0x80; /* with a character of UTF-8 */
        line += *at == '\n';
        character = *at == '\n' ? 1 : character + !goes_on;
    }
    say(said, " Line %zu, character %zu: ", line, character);
}

/* Cells, home and counts may be written in capitals. */
static uint8_t folded(uint8_t c) {
    return (c >= 'A' && c <= 'H') || c == 'V' ? (uint8_t)(c - 'A' + 'a') : c;
}

/* The words with one space between two, as the library reads them. Hands back their length. */
static size_t tidy(const uint8_t *text, size_t length, uint8_t *out) {
    const uint8_t *end = text + length;
    size_t written = 0;
    for (struct word word = next_word(text, end); word.length; word = next_word(word.at + word.length, end)) {
        if (written) {
            out[written++] = ' ';
        }
        for (size_t i = 0; i < word.length; i++) {
            out[written++] = folded(word.at[i]);
        }
    }
    return written;
}

/* Where the character at a place of the tidy text stands in the text as it was given. */
static const uint8_t *untidy(const uint8_t *text, size_t length, size_t place, struct word *word) {
    const uint8_t *end = text + length;
    *word = next_word(text, end);
    while (word->length && place > word->length) {
        place -= word->length + 1;
        *word = next_word(word->at + word->length, end);
    }
    return word->at + (place < word->length ? place : word->length);
}

static bool is_column(uint8_t c) {
    return c >= '1' && c <= '8';
}

/* What a move's text needs at a place that is wrong; all before it is right. */
static const char *needed(struct word word, size_t place) {
    switch (place) {
    case 0:
        return "a column (1 to 8) or a cell (a to d) from which a card is taken is expected";
    case 1:
        return is_column(word.at[0]) ? "a column (1 to 8), a cell (a to d) or h for home is expected"
                                     : "a column (1 to 8) or h for home is expected";
    case 2:
        return is_column(word.at[0]) && is_column(word.at[1]) ? "the next move is expected, or v and a count" : "the next move is expected";
    case 3:
        return "a count in one hexadecimal digit is expected";
    default:
        return "the next move is expected";
    }
}

static void blame_text(const uint8_t *text, size_t length, size_t place, struct said *said) {
    struct word word;
    const uint8_t *at = untidy(text, length, place, &word);
    size_t in_word = (size_t)(at - word.at);
    say_place(said, text, at);
    if (in_word < word.length) {
        size_t bytes = utf8_length(at, (size_t)(word.at + word.length - at));
        say_quoted(said, at, bytes ? bytes : 1);
    } else {
        say(said, "the move ends");
    }
    say(said, " where %s.", needed(word, in_word));
}

/* The board after the first moves of a list, all of which can be played. */
static void play_to(const uint8_t *board, struct played *played) {
    size_t count;
    corbelnib_replay(board, CORBELNIB_BOARD, played->list, CORBELNIB_MOVE * played->moves, played->last, sizeof played->last, &count);
}

/* A paper's line as the library takes it. */
static bool tidy_play(const uint8_t *board, const uint8_t *tidied, size_t length, struct played *played, size_t *count) {
    played->told = corbelnib_read_line(board, CORBELNIB_BOARD, tidied, length, played->list, sizeof played->list, count);
    if (CORBELNIB_IS_BAD_MOVE(played->told)) {
        /* the list is not told beside a refusal: the moves before the bad one are read again */
        struct word bad = word_of(tidied, length, *count);
        size_t before = (size_t)(bad.at - tidied);
        say_quoted(&played->bad, bad.at, bad.length);
        corbelnib_read_line(board, CORBELNIB_BOARD, tidied, before ? before - 1 : 0, played->list, sizeof played->list, count);
    } else if (played->told != CORBELNIB_DONE) {
        return false;
    }
    played->moves = *count;
    play_to(board, played);
    return true;
}

static bool paper_play(const uint8_t *board, const uint8_t *text, size_t length, struct played *played, struct refusal *refusal) {
    size_t count = 0;
    uint8_t *tidied = malloc(length + 1);
    if (!tidied) {
        say(&refusal->words, "no memory to read it");
        return false;
    }
    bool read = tidy_play(board, tidied, tidy(text, length, tidied), played, &count);
    free(tidied);
    if (!read) {
        refuse(refusal, played->told);
    }
    if (played->told == CORBELNIB_WRONG_TEXT) {
        blame_text(text, length, count, &refusal->words);
    }
    return read;
}

static void blame_length(size_t length, struct said *said) {
    if (length % CORBELNIB_MOVE) {
        say(said, " There are ");
        say_count(said, length, "byte.", "bytes.");
    } else {
        say(said, " There are more than %d moves.", CORBELNIB_LIST / CORBELNIB_MOVE);
    }
}

bool records_play(const uint8_t *board, const uint8_t *bytes, size_t length, struct played *played, struct refusal *refusal) {
    played->told =
        corbelnib_replay(board, CORBELNIB_BOARD, bytes, length, played->last, sizeof played->last, &played->moves);
    if (CORBELNIB_IS_BAD_MOVE(played->told)) {
        const uint8_t *bad = bytes + CORBELNIB_MOVE * played->moves;
        say(&played->bad, "%u,%u,%u,%u,%u", bad[0], bad[1], bad[2], bad[3], bad[4]);
    } else if (played->told != CORBELNIB_DONE) {
        refuse(refusal, played->told);
        blame_length(length, &refusal->words);
        return false;
    }
    memcpy(played->list, bytes, CORBELNIB_MOVE * played->moves);
    return true;
}

/* One number of a record, 0 to 255. Moves past it; false if there is none. */
static bool read_byte(const uint8_t **at, const uint8_t *end, uint8_t *byte) {
    unsigned number = 0;
    const uint8_t *start = *at;
    for (; *at < end && **at >= '0' && **at <= '9' && number <= UINT8_MAX; ++*at) {
        number = number * 10 + (unsigned)(**at - '0');
    }
    *byte = (uint8_t)number;
    return *at > start && number <= UINT8_MAX;
}

/* Five numbers with commas between them. Hands back where it is wrong, or NULL. */
static const uint8_t *read_record(struct word word, uint8_t *record) {
    const uint8_t *at = word.at, *end = word.at + word.length;
    for (size_t i = 0; i < CORBELNIB_MOVE; i++) {
        const uint8_t *start = at;
        if (i > 0 && (at == end || *at++ != ',')) {
            return start;
        }
        if (!read_byte(&at, end, &record[i])) {
            return start + (i > 0);
        }
    }
    return at == end ? NULL : at;
}

static bool numbers_play(const uint8_t *board, const uint8_t *text, size_t length, struct played *played, struct refusal *refusal) {
    /* one record more than a list has, so that the library sees one that is too long */
    uint8_t list[CORBELNIB_LIST + CORBELNIB_MOVE];
    size_t moves = 0;
    const uint8_t *end = text + length;
    for (struct word word = next_word(text, end); word.length; word = next_word(word.at + word.length, end)) {
        uint8_t record[CORBELNIB_MOVE];
        const uint8_t *wrong = read_record(word, record);
        if (wrong) {
            say(&refusal->words, "This is no list of records.");
            say_place(&refusal->words, text, wrong);
            say(&refusal->words, "five numbers, 0 to 255, with commas between them are expected of move %zu, and ", moves + 1);
            say_quoted(&refusal->words, word.at, word.length);
            say(&refusal->words, " is there.");
            return false;
        }
        if (CORBELNIB_MOVE * moves < sizeof list) {
            memcpy(list + CORBELNIB_MOVE * moves++, record, sizeof record);
        }
    }
    return records_play(board, list, CORBELNIB_MOVE * moves, played, refusal);
}

bool line_play(const uint8_t *board, const uint8_t *text, size_t length, struct played *played, struct refusal *refusal) {
    memset(played, 0, sizeof *played);
    refusal->number = NO_REFUSAL;
    refusal->words.length = 0;
    if (length > 0) {
        frame_line(&text, &length);
    }
    bool numbers = length > 0 && memchr(text, ',', length);
    return numbers ? numbers_play(board, text, length, played, refusal) : paper_play(board, text, length, played, refusal);
}
