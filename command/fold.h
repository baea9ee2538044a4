/* Sentences for a terminal, folded at its width. */
#ifndef COMMAND_FOLD_H
#define COMMAND_FOLD_H

#include <stdio.h>

/* Prints a text. Where the stream is a terminal whose width is known, lines that are longer are folded between words, and what goes on
 * stands under what it belongs to. */
void print_folded(FILE *file, const char *text);

#endif
