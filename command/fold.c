#define _DEFAULT_SOURCE

#include "fold.h"

#include <stdbool.h>
#include <string.h>
#include <sys/ioctl.h>
#include <unistd.h>

/* Narrower than this nothing is folded. */
#define WIDTH_LEAST 20

/* The columns of the terminal that a stream goes to; 0 if it is none, or does not tell. */
static size_t width_of(FILE *file) {
    struct winsize size;
    bool told = isatty(fileno(file)) && ioctl(fileno(file), TIOCGWINSZ, &size) == 0;
    return told && size.ws_col >= WIDTH_LEAST ? size.ws_col : 0;
}

/* The columns that some bytes take: those that go on with a character take none. */
static size_t columns_of(const char *text, size_t length) {
    size_t columns = 0;
    for (size_t i = 0; i < length; i++) {
        columns += ((unsigned char)text[i] & 0xc0) != 0x80;
    }
    return columns;
}

/* Where what goes on is to stand: behind the first gap of two spaces, as in a list of options, or where the line begins. */
static size_t indent_of(const char *line, size_t length, size_t width) {
    size_t start = strspn(line, " ");
    for (size_t i = start; i + 2 < length && i < width / 2; i++) {
        if (start > 0 && memcmp(line + i, "  ", 2) == 0) {
            return i + strspn(line + i, " ") < width / 2 ? i + strspn(line + i, " ") : start;
        }
    }
    return start < width / 2 ? start : 0;
}

static size_t word_end(const char *line, size_t at, size_t length) {
    while (at < length && line[at] == ' ') {
        at++;
    }
    while (at < length && line[at] != ' ') {
        at++;
    }
    return at;
}

static void fold_line(FILE *file, const char *line, size_t length, size_t width) {
    size_t indent = indent_of(line, length, width), column = 0;
    for (size_t at = 0, end; at < length; at = end) {
        end = word_end(line, at, length);
        size_t columns = columns_of(line + at, end - at);
        if (column > indent && column + columns > width) {
            size_t spaces = strspn(line + at, " ");
            fprintf(file, "\n%*s", (int)indent, "");
            at += spaces;
            columns -= spaces;
            column = indent;
        }
        fwrite(line + at, 1, end - at, file);
        column += columns;
    }
}

void print_folded(FILE *file, const char *text) {
    size_t width = width_of(file);
    if (width == 0) {
        fputs(text, file);
        return;
    }
    for (size_t length; *text; text += length) {
        length = strcspn(text, "\n");
        fold_line(file, text, length, width);
        if (text[length] == '\n') {
            fputc('\n', file);
            length++;
        }
    }
}
