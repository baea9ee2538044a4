/* In place of command/rise.c: a search at once with the settings that were asked for. The command that is linked with it says, byte for byte,
 * what the one that rises to its settings says (tests/rising.sh). */
#include "../command/rise.h"

#include "../command/amount.h"

bool judge_rising(const uint8_t *board, const struct settings *asked, struct witness *witness, struct verdict *verdict, size_t *lacking) {
    struct scratch scratch;
    (void)witness;
    if (!lend(&scratch, asked->capacity)) {
        *lacking = NODE_BYTES * asked->capacity;
        return false;
    }
    judge_with(board, asked, &scratch, verdict);
    take_back(&scratch);
    return true;
}
