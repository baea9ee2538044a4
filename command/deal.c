/* corbelnib deal: the hand of a number. */
#include <stdio.h>

#include "amount.h"
#include "card.h"
#include "commands.h"
#include "given.h"
#include "layout.h"
#include "options.h"
#include "report.h"
#include "show.h"

const char help_deal[] =
    "usage: corbelnib deal NUMBER [--picture [--ascii] [--colour] | --image | --json]\n"
    "\n"
    "Prints the hand of a number, 1 to 32,000, a line for each column, the deepest card first, as fc-solve reads it.\n"
    "\n"
    "  --picture  draws it, red suits in red on a terminal\n"
    "  --ascii    letters for suits in the picture, and no colour\n"
    "  --colour   colour even if the output is no terminal\n"
    "  --image    writes the image of the board (docs/SCOPE.md) in place of text\n"
    "  --json     for programs: version, input, hand, board (its 432 bytes), signature, image and columns; a failure too\n"
    "\n"
    "examples: corbelnib deal 617\n"
    "          corbelnib deal 617 | fc-solve\n"
    "          corbelnib deal 617 --image > hand.img\n"
    "\n"
    "status: 0 dealt, 2 there is no such hand, 64 wrong use, 74 the output failed\n";

static const char who[] = "deal";

static void write_image(const uint8_t *board) {
    uint8_t image[IMAGE_MOST];
    fwrite(image, 1, image_of(board, image), stdout);
}

/* The columns as arrays, the deepest card first. */
static void json_columns(struct object *object, const uint8_t *board) {
    object_rows(object, "columns");
    for (size_t column = 0; column < COLUMNS; column++) {
        object_row(object);
        for (size_t row = 0; row < count_of(board, column); row++) {
            uint8_t code = card_of(board, column, row);
            printf("%s\"%c%c\"", row ? ", " : "[", value_letter(value_of(code)), suit_letters[suit_of(code)]);
        }
        printf("]");
    }
    object_rows_end(object);
}

static void print_json(const struct given *given) {
    uint8_t image[IMAGE_MOST];
    struct object object;
    object_open(&object, false);
    json_given(&object, given);
    object_hex(&object, "image", image, image_of(given->board, image));
    json_columns(&object, given->board);
    object_close(&object);
}

int run_deal(int argc, char **argv) {
    bool picture = false, ascii = false, colour = false, image = false, json = false;
    const struct option options[] = {{"--picture", &picture, NULL}, {"--ascii", &ascii, NULL}, {"--colour", &colour, NULL},
                                     {"--image", &image, NULL},     {"--json", &json, NULL},   {0}};
    struct wordlist words;
    int status = options_part(who, argc, argv, options, 1, &words);
    if (status != STATUS_DONE) {
        return status;
    }
    if (words.count == 0 || !is_digits(words.word[0])) {
        return wrong_use(who, "a hand's number is expected, 1 to 32,000");
    }
    if (image + picture + json > 1) {
        return wrong_use(who, json ? "--json does not go with --image and --picture" : "--image and --picture do not go together");
    }
    struct given given;
    struct refusal refusal = {0};
    status = given_read(words.word[0], &given, &refusal);
    if (status != STATUS_DONE) {
        tell_refusal(who, given.name, &refusal);
    } else if (json) {
        print_json(&given);
    } else if (image) {
        write_image(given.board);
    } else if (picture) {
        struct pen pen = pen_of(ascii, colour);
        show_picture(given.board, &pen);
    } else {
        show_columns(given.board);
    }
    return status;
}
