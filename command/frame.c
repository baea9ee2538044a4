#include "frame.h"

#include <stdbool.h>
#include <string.h>

/* A line of a text without its end, and where the next one begins. */
struct row {
    const uint8_t *at;
    size_t length, next;
};

static struct row row_at(const uint8_t *text, size_t length, size_t at) {
    const uint8_t *newline = length > at ? memchr(text + at, '\n', length - at) : NULL;
    size_t end = newline ? (size_t)(newline - text) : length;
    struct row row = {text + at, end - at, newline ? end + 1 : length};
    if (row.length > 0 && row.at[row.length - 1] == '\r') {
        row.length--;
    }
    return row;
}

static bool begins(const struct row *row, const char *words) {
    return row->length >= strlen(words) && memcmp(row->at, words, strlen(words)) == 0;
}

/* Whether a line is what say_given and a verdict make. */
static bool is_sentence(const struct row *row) {
    bool board = begins(row, "Hand ") || begins(row, "The text ") || begins(row, "The image ") || begins(row, "The record ");
    return board && memchr(row->at, ':', row->length);
}

size_t frame_board(const uint8_t *text, size_t length, size_t *lines) {
    size_t found = 0, line = 0;
    *lines = 0;
    for (size_t at = 0; at < length;) {
        struct row row = row_at(text, length, at);
        struct row after = row_at(text, length, row.next);
        line++;
        if (is_sentence(&row) && after.length == 0 && after.next < length) {
            found = after.next;
            *lines = line + 1;
        }
        at = row.next;
    }
    return found;
}

void frame_line(const uint8_t **text, size_t *length) {
    struct row row = row_at(*text, *length, 0);
    if (!is_sentence(&row)) {
        return;
    }
    size_t start = row.next, end;
    while (start < *length && (row = row_at(*text, *length, start)).length == 0) {
        start = row.next;
    }
    for (end = start; end < *length && (row = row_at(*text, *length, end)).length > 0;) {
        end = row.next;
    }
    *text += start;
    *length = end - start;
}
