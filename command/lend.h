/* Memory that is lent to a search, and a search with its answer. */
#ifndef COMMAND_LEND_H
#define COMMAND_LEND_H

#include <stdbool.h>
#include <stddef.h>
#include <stdint.h>

#include "corbelnib.h"

/* What a controller has. */
#define MEMORY_USUAL ((size_t)512 * 1024 * 1024)

/* One block, carved as include/corbelnib.h does it. */
struct scratch {
    void *block;
    struct corbelnib_scratch parts;
};

/* False if there is not so much memory; nothing has to be taken back then. */
bool lend(struct scratch *scratch, size_t capacity);
void take_back(struct scratch *scratch);

struct settings {
    size_t budget, memory, capacity;
    bool partial;
};

struct verdict {
    uint8_t told; /* an answer, or 20 or 22 */
    size_t pops, moves;
    uint8_t list[CORBELNIB_LIST];
};

/* Judges a board with the scratch that was lent. */
void judge_with(const uint8_t *board, const struct settings *settings, struct scratch *scratch, struct verdict *verdict);

/* What the same search says where no best line is allowed: the flag is asked at its end alone (search/specs/Solve.antt, `answer`). */
void leave_line_out(struct verdict *verdict);

#endif
