/* What is read is what fc-solve 5.0 documents: eight lines, a column each, the deepest card first, perhaps behind a colon; a blank line
 * is an empty column (so it does, and a text that ends before its eighth line is not enough for it). `Foundations:` or `Founds:` and
 * `Freecells:` or `FC:` may stand on lines before the last column; of two such lines the later counts. Case does not matter.
 *
 * Read too: what `corbelnib play` and `--picture` print, suits by their signs, no-break spaces.
 *
 * Stricter than fc-solve, which passes over what it does not understand: a word that is no card, a fifth cell, a suit twice on a line
 * and anything but blank lines behind the eighth column are mistakes here. It has no comments, so there are none here. */
#include "text.h"

#include <string.h>

#include "frame.h"
#include "hint.h"
#include "picture.h"
#include "utf8.h"

/* What has been read, and the line that is being read. */
struct reader {
    const uint8_t *bytes;
    size_t length, at;
    size_t line; /* counted from 1 */
    uint8_t line_end;
    const uint8_t *next, *end;
    size_t columns, blank; /* columns read; the first blank line among them, or 0 */
    struct layout *layout;
    struct said *why;
};

static bool in_text(uint8_t byte) {
    bool layout = byte == '\t' || byte == '\n' || byte == '\r';
    bool control = byte < ' ' || byte == 0x7f;
    bool never = byte == 0xc0 || byte == 0xc1 || byte >= 0xf5; /* not in UTF-8 */
    return layout || (!control && !never);
}

size_t text_ends(const uint8_t *bytes, size_t length) {
    size_t i = 0;
    while (i < length && in_text(bytes[i])) {
        i++;
    }
    return i;
}

static void skip_space(struct reader *r) {
    for (size_t length; (length = space_length(r->next, (size_t)(r->end - r->next))) > 0;) {
        r->next += length;
    }
}

/* The next line, without its end, which may be that of Windows, or where there is no other that of old Macs. False after the last one. */
static bool next_line(struct reader *r) {
    if (r->at >= r->length) {
        return false;
    }
    const uint8_t *start = r->bytes + r->at;
    const uint8_t *newline = memchr(start, r->line_end, r->length - r->at);
    r->next = start;
    r->end = newline ? newline : r->bytes + r->length;
    r->at = newline ? (size_t)(newline - r->bytes) + 1 : r->length;
    if (r->end > r->next && r->end[-1] == '\r') {
        r->end--;
    }
    r->line++;
    skip_space(r);
    return true;
}

/* The next word of the line; its length is 0 where the line ends. */
static size_t next_word(struct reader *r, const uint8_t **word) {
    skip_space(r);
    *word = r->next;
    while (r->next < r->end && !space_length(r->next, (size_t)(r->end - r->next))) {
        r->next++;
    }
    return (size_t)(r->next - *word);
}

/* Whether the line begins with a label, which is then passed over. */
static bool labelled(struct reader *r, const char *label) {
    size_t length = strlen(label);
    if ((size_t)(r->end - r->next) < length) {
        return false;
    }
    for (size_t i = 0; i < length; i++) {
        uint8_t byte = r->next[i];
        uint8_t lower = byte >= 'A' && byte <= 'Z' ? (uint8_t)(byte - 'A' + 'a') : byte;
        if (lower != (uint8_t)label[i]) {
            return false;
        }
    }
    r->next += length;
    return true;
}

static bool no_card(struct reader *r, size_t place, const uint8_t *word, size_t length) {
    say(r->why, "line %zu, card %zu: ", r->line, place);
    say_quoted(r->why, word, length);
    say(r->why, " is no card; a value (A, 2 to 10 or T, J, Q, K) and a suit (C, D, H, S) are expected");
    return false;
}

static bool read_column(struct reader *r) {
    size_t column = r->columns++;
    struct layout *layout = r->layout;
    const uint8_t *word;
    labelled(r, ":");
    layout->lines[column] = r->line;
    for (size_t length; (length = next_word(r, &word)) > 0;) {
        size_t row = layout->counts[column];
        if (row == COLUMN_ROOM) {
            say(r->why, "line %zu, card %d: a column has at most %d cards", r->line, COLUMN_ROOM + 1, COLUMN_ROOM);
            return false;
        }
        if (!read_card(word, length, &layout->cards[column][row])) {
            return no_card(r, row + 1, word, length);
        }
        layout->counts[column]++;
    }
    return true;
}

/* fc-solve's own sign for an empty cell is -, and it takes -- and * too. */
static bool is_empty_cell(const uint8_t *word, size_t length) {
    return (length == 1 && (*word == '-' || *word == '*')) || (length == 2 && memcmp(word, "--", 2) == 0);
}

static bool read_cells(struct reader *r) {
    struct layout *layout = r->layout;
    const uint8_t *word;
    memset(layout->cells, NO_CARD, CELLS);
    layout->cells_line = r->line;
    size_t cell = 0;
    for (size_t length; (length = next_word(r, &word)) > 0; cell++) {
        if (cell == CELLS) {
            say(r->why, "line %zu, card %d: no more than %d cells are expected", r->line, CELLS + 1, CELLS);
            return false;
        }
        if (!is_empty_cell(word, length) && !read_card(word, length, &layout->cells[cell])) {
            return no_card(r, cell + 1, word, length);
        }
    }
    return true;
}

static bool read_homes(struct reader *r) {
    bool told[SUITS] = {false};
    const uint8_t *word;
    memset(r->layout->homes, 0, SUITS);
    r->layout->homes_line = r->line;
    size_t place = 0;
    for (size_t length; (length = next_word(r, &word)) > 0;) {
        uint8_t suit, value;
        place++;
        if (!read_home(word, length, &suit, &value)) {
            say(r->why, "line %zu, foundation %zu: ", r->line, place);
            say_quoted(r->why, word, length);
            say(r->why, " is none; a suit (C, D, H, S), a dash and 0, A, 2 to 10 or T, J, Q, K are expected");
            return false;
        }
        if (told[suit]) {
            say(r->why, "line %zu, foundation %zu: that of %s is told twice", r->line, place, suit_name(suit));
            return false;
        }
        told[suit] = true;
        r->layout->homes[suit] = value;
    }
    return true;
}

/* Behind the eighth column only blank lines may stand. */
static bool read_rest(struct reader *r) {
    if (r->next == r->end) {
        return true;
    }
    say(r->why, "line %zu: nothing is expected behind the eighth column", r->line);
    if (r->blank) {
        say(r->why, "; the blank line %zu was taken for an empty column", r->blank);
    }
    return false;
}

static bool read_line(struct reader *r) {
    if (r->columns == COLUMNS) {
        return read_rest(r);
    }
    if (labelled(r, "foundations:") || labelled(r, "founds:")) {
        return read_homes(r);
    }
    if (labelled(r, "freecells:") || labelled(r, "fc:")) {
        return read_cells(r);
    }
    if (r->next == r->end && !r->blank) {
        r->blank = r->line;
    }
    return read_column(r);
}

/* Behind a mark, if there is one, and behind the sentence of `corbelnib play`. */
static struct reader reader_of(const uint8_t *bytes, size_t length, struct layout *layout, struct said *why) {
    static const uint8_t mark[] = {0xef, 0xbb, 0xbf}; /* with which Windows begins a text */
    bool marked = length >= sizeof mark && memcmp(bytes, mark, sizeof mark) == 0;
    struct reader r = {.bytes = bytes, .length = length, .at = marked ? sizeof mark : 0, .layout = layout, .why = why};
    r.line_end = memchr(bytes, '\n', length) ? '\n' : '\r';
    size_t board = frame_board(bytes, length, &r.line);
    r.at = board > r.at ? board : r.at;
    return r;
}

bool text_read(const uint8_t *bytes, size_t length, struct layout *layout, struct said *why) {
    struct reader r = reader_of(bytes, length, layout, why);
    layout_clear(layout, FORM_TEXT);
    if (picture_begins(bytes + r.at, length - r.at)) {
        return picture_read(bytes + r.at, length - r.at, r.line, layout, why);
    }
    while (next_line(&r)) {
        if (!read_line(&r)) {
            hint_text(bytes, length, why);
            return false;
        }
    }
    if (r.columns < COLUMNS) {
        say(why, "line %zu: the text ends after ", r.line + 1);
        say_count(why, r.columns, "column", "columns");
        say(why, "; %d are expected, a line each, and a blank line is an empty column", COLUMNS);
        hint_text(bytes, length, why);
    }
    return r.columns == COLUMNS;
}
