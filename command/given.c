#include "given.h"

#include <string.h>

#include "amount.h"
#include "blame.h"
#include "hint.h"
#include "input.h"
#include "text.h"
#include "version.h"

static bool take_text(const uint8_t *bytes, size_t length, struct given *given, struct refusal *refusal) {
    struct layout layout;
    given->form = FORM_TEXT;
    refusal->number = NO_REFUSAL;
    if (!text_read(bytes, length, &layout, &refusal->words)) {
        return false;
    }
    layout_record(&layout, given->board);
    uint8_t number = corbelnib_examine(given->board, sizeof given->board);
    if (number) {
        refuse(refusal, number);
        blame_layout(&layout, number, &refusal->words);
    }
    return !number;
}

static bool take_image(const uint8_t *bytes, size_t length, struct given *given, struct refusal *refusal) {
    given->form = FORM_IMAGE;
    uint8_t number = corbelnib_read(bytes, length, given->board, sizeof given->board);
    if (number) {
        refuse(refusal, number);
        blame_image(bytes, length, number, &refusal->words);
    }
    return !number;
}

static bool take_record(const uint8_t *bytes, struct given *given, struct refusal *refusal) {
    given->form = FORM_RECORD;
    uint8_t number = corbelnib_examine(bytes, CORBELNIB_BOARD);
    if (number) {
        refuse(refusal, number);
        blame_record(bytes, number, &refusal->words);
        return false;
    }
    memcpy(given->board, bytes, CORBELNIB_BOARD);
    return true;
}

/* An image has its version byte and a record its zeros, which stand in no text. Of 432 bytes those are an image whose count says so. */
bool given_bytes(const uint8_t *bytes, size_t length, struct given *given, struct refusal *refusal) {
    if (length == 0) {
        given->form = FORM_TEXT;
        refusal->number = NO_REFUSAL;
        say(&refusal->words, "it is empty; a board's text, image or record is expected");
        return false;
    }
    size_t end = text_ends(bytes, length);
    if (end == length) {
        return take_text(bytes, length, given, refusal);
    }
    bool counted = length >= IMAGE_VERSION_AT && (size_t)256 * bytes[0] + bytes[1] == length - IMAGE_VERSION_AT;
    if (length == CORBELNIB_BOARD && !counted) {
        return take_record(bytes, given, refusal);
    }
    bool taken = take_image(bytes, length, given, refusal);
    struct said meant = {0};
    if (refusal->number == CORBELNIB_WRONG_LENGTH && hint_bytes(bytes, length, end, &meant)) {
        given->form = FORM_TEXT;
        refusal->number = NO_REFUSAL;
        refusal->words = meant;
    } else if (refusal->number == CORBELNIB_WRONG_LENGTH) {
        /* it may have been meant as a text */
        say(&refusal->words, " It was taken for an image because byte %zu is %u, which stands in no text.", end, bytes[end]);
    }
    return taken;
}

static bool given_hand(size_t hand, struct given *given, struct refusal *refusal) {
    given->form = FORM_HAND;
    given->hand = hand;
    uint8_t number = corbelnib_number(hand, given->board, sizeof given->board);
    if (number) {
        refuse(refusal, number);
    }
    return !number;
}

int given_read(const char *word, struct given *given, struct refusal *refusal) {
    memset(given, 0, sizeof *given);
    refusal->number = NO_REFUSAL;
    refusal->words.length = 0;
    given->name = word;
    if (is_digits(word)) {
        size_t hand;
        amount_number(word, &hand);
        return given_hand(hand, given, refusal) ? STATUS_DONE : STATUS_REFUSED;
    }
    struct input input;
    input_prompt(word, "a board");
    int status = input_read(word, INPUT_MOST, &input, &refusal->words);
    if (status == STATUS_DONE) {
        status = given_bytes(input.bytes, input.length, given, refusal) ? STATUS_DONE : STATUS_REFUSED;
        input_free(&input);
    }
    given->name = input_name(word);
    return status;
}

void say_given(struct said *said, const struct given *given) {
    if (given->form == FORM_HAND) {
        say(said, "Hand %zu", given->hand);
    } else {
        const char *from = strcmp(given->name, input_name("-")) == 0 ? "from" : "in";
        say(said, "The %s %s %s", form_name(given->form), from, given->name);
    }
    say(said, "%s", is_proved() ? "" : " (NOT PROVED)");
}
