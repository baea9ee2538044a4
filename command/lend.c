#include "lend.h"

#include <stdlib.h>
#include <string.h>

bool lend(struct scratch *s, size_t capacity) {
    memset(s, 0, sizeof *s);
    if (capacity > SIZE_MAX / 2 / CORBELNIB_NODE) { /* more bytes than any machine has */
        return false;
    }
    size_t bytes = corbelnib_scratch_bytes(capacity);
    s->block = malloc(bytes + 1); /* one more, so that malloc hands out no NULL for nothing */
    s->parts = corbelnib_carve(s->block, bytes);
    return s->block != NULL;
}

void take_back(struct scratch *s) {
    free(s->block);
    memset(s, 0, sizeof *s);
}

void judge_with(const uint8_t *board, const struct settings *settings, struct scratch *s, struct verdict *verdict) {
    memset(verdict, 0, sizeof *verdict);
    verdict->told = corbelnib_judge(board, CORBELNIB_BOARD, settings->budget, settings->partial, CORBELNIB_SCRATCH(s->parts), verdict->list,
                                    sizeof verdict->list, &verdict->pops, &verdict->moves);
}

void leave_line_out(struct verdict *verdict) {
    if (verdict->told == CORBELNIB_WON) {
        return;
    }
    if (verdict->told == CORBELNIB_BEST_AT_LIMIT || verdict->told == CORBELNIB_BEST_IS_WON) {
        verdict->told = CORBELNIB_LIMIT;
    } else if (verdict->told == CORBELNIB_BEST_EXHAUSTED) {
        verdict->told = CORBELNIB_EXHAUSTED;
    }
    verdict->moves = 0;
    memset(verdict->list, 0, sizeof verdict->list);
}
