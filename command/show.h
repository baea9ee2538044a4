/* Boards for readers: fc-solve's text, and a picture. */
#ifndef COMMAND_SHOW_H
#define COMMAND_SHOW_H

#include <stdbool.h>
#include <stdint.h>

/* How a picture is drawn. */
struct pen {
    bool ascii;  /* letters for suits */
    bool colour; /* red suits in red */
};

/* In colour if it is forced, or if standard output is a terminal that nobody asked to be plain; never with ascii. */
struct pen pen_of(bool ascii, bool force_colour);

/* The columns alone, as hands are written that begin. */
void show_columns(const uint8_t *board);

/* Foundations, cells and columns, as fc-solve writes a board in the middle of play. */
void show_board(const uint8_t *board);

void show_picture(const uint8_t *board, const struct pen *pen);

#endif
