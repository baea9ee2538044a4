/* Judges the boards that stand on standard input, as a controller program would, and writes what comes back, for comparison with the original
 * (compare/src/sample.rs).
 * Input, again and again: a two-byte count of the bytes that follow; budget, three bytes; nodes, two bytes; the flag; an image. The higher
 * byte of a number comes first.
 * Output, a line each: the answer; pops, moves, and the list's records. Every answer has to leave the scratch zeros and the list's other
 * bytes as they were. */
#include <stdio.h>
#include <string.h>

#include "corbelnib.h"
#include "oracle.h"

/* The first bytes of a list, two digits each, with a space behind each record. */
static void records(const uint8_t *list, size_t moves) {
    for (size_t k = 0; k < CORBELNIB_MOVE * moves; k++) {
        printf(k % CORBELNIB_MOVE == CORBELNIB_MOVE - 1 ? "%02x " : "%02x", list[k]);
    }
}

static void cleared(struct corbelnib_scratch s) {
    holds("a word of the nodes is not 0", s.nodes, s.nodes_length * sizeof *s.nodes, 0);
    holds("a word of the waiting is not 0", s.heap, s.heap_length * sizeof *s.heap, 0);
    holds("a key is not 0", s.keys, s.keys_length * sizeof *s.keys, 0);
    holds("a cost is not 0", s.costs, s.costs_length, 0);
}

/* The capacity is the least over the parts: the waiting have room for just so many, the others for more. */
static struct corbelnib_scratch scratch_for(size_t capacity) {
    size_t most = capacity <= 2000 ? 2000 : 24000;
    struct corbelnib_scratch s = {.nodes_length = CORBELNIB_NODES(most), .heap_length = CORBELNIB_HEAP(capacity),
                                  .keys_length = CORBELNIB_KEYS(most), .costs_length = CORBELNIB_COSTS(most)};
    if (capacity > most) {
        wrong_input("more nodes than there is memory for");
    }
    s.nodes = lend_words(s.nodes_length, 7);
    s.heap = lend_longs(s.heap_length, 7);
    s.keys = lend_longs(s.keys_length, 7);
    s.costs = lend_bytes(s.costs_length, MARK);
    return s;
}

static void judge(struct bytes board, size_t budget, size_t capacity, uint8_t partial) {
    struct corbelnib_scratch s = scratch_for(capacity);
    uint8_t *list = lend_bytes(CORBELNIB_LIST, MARK);
    size_t *pops = lend_number(0), *moves = lend_number(0);
    struct bytes given = give(board);
    uint8_t answer = corbelnib_judge(given.at, given.length, budget, partial, CORBELNIB_SCRATCH(s), list, CORBELNIB_LIST, pops, moves);
    taken_back();
    say(answer);
    say(*pops);
    say(*moves);
    if (!CORBELNIB_IS_ANSWER(answer) || *moves > CORBELNIB_LIST / CORBELNIB_MOVE) {
        return;
    }
    records(list, *moves);
    size_t end = CORBELNIB_MOVE * *moves;
    holds("the list is written beyond its end", list + end, CORBELNIB_LIST - end, MARK);
    cleared(s);
}

/* One case: its settings and its image. */
static void asked(struct bytes s) {
    struct bytes image = give(rest(s, 6));
    uint8_t board[CORBELNIB_BOARD];
    uint8_t *read = lend_bytes(CORBELNIB_BOARD, 0);
    uint8_t refused = corbelnib_read(image.at, image.length, read, CORBELNIB_BOARD);
    taken_back();
    memcpy(board, read, CORBELNIB_BOARD);
    if (refused == CORBELNIB_DONE) {
        struct bytes given = {board, CORBELNIB_BOARD};
        judge(given, number_at(s, 0, 3), number_at(s, 3, 2), s.at[5]);
    } else {
        say(refused);
    }
    puts("");
}

int main(void) {
    struct bytes s = all_input();
    while (s.length > 0) {
        size_t size = number_at(s, 0, 2);
        asked(part(s, 2, size));
        s = rest(s, 2 + size);
    }
    return 0;
}
