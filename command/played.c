#include "played.h"

#include <stdio.h>
#include <string.h>

#include "emit.h"
#include "report.h"

/* The refused move as it was given, without the quotation marks that a reader sees. */
static void json_bad(const struct said *bad) {
    struct said plain = *bad;
    bool quoted = bad->length >= 2 && bad->text[0] == '"' && bad->text[bad->length - 1] == '"';
    if (quoted) {
        plain.text[plain.length - 1] = '\0';
    }
    json_text(plain.text + quoted);
}

static void json_stopped(struct object *object, const struct played *played) {
    if (played->told == CORBELNIB_DONE) {
        object_text(object, "stopped", NULL);
        return;
    }
    object_member(object, "stopped");
    printf("{\"place\": %zu, \"move\": ", played->moves + 1);
    json_bad(&played->bad);
    printf(", \"number\": %u, \"meaning\": ", played->told);
    json_text(refusal_words(played->told));
    printf("}");
}

void played_json(const struct given *given, const struct played *played) {
    uint8_t board[CORBELNIB_BOARD];
    struct object object;
    memcpy(board, given->board, sizeof board);
    object_open(&object, false);
    json_given(&object, given);
    json_stopped(&object, played);
    object_number(&object, "moves", played->moves);
    json_line(&object, board, played->list, played->moves);
    json_moves(&object, board, played->list, played->moves);
    json_final(&object, played->last);
    object_hex(&object, "last", played->last, sizeof played->last);
    object_close(&object);
}
