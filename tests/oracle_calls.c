/* Calls functions of the library, each by its number, and writes what comes back and what stands then in every lent place, for comparison
 * with the original (compare/src/calls.rs). (oracle_papers and oracle_season have the other four.)
 * Input, again and again: how many bytes come after the next eleven, two bytes; the function, 1 to 22; how much room is lent, two bytes; how
 * many bytes of the board are given, two bytes; a place of the board, two bytes, and the byte put there; a kind of move, or a flag; how
 * many bytes are given beside the board, two bytes. After the eleven: these bytes, and the board's image; or, if the function has 128
 * added, the board itself. The higher byte of a number comes first.
 * Output, a line each: the function; the number that came; the numbers told; a check sum of all the room. */
#include <stdio.h>

#include "corbelnib.h"
#include "oracle.h"

/* The room of which the first bytes are lent, and so for features and the parts of the scratch. */
#define ROOM 4200
#define FEATURES 9
#define NODES 8
#define HEAP 3
#define KEYS 6
#define COSTS 6

/* What is asked. `bytes` stand beside the board. */
struct call {
    uint8_t function, kind;
    struct bytes board, bytes;
    uint8_t *room;
    size_t length;
};

/* The number that came; and one with a number told. */
static void came(uint8_t answer) {
    taken_back();
    say(answer);
}

static void told(uint8_t answer, const size_t *n) {
    came(answer);
    say(*n);
}

static void told_byte(uint8_t answer, const uint8_t *n) {
    came(answer);
    say(*n);
}

static void priority(struct call c) {
    int64_t before = -7, *priority = lend(1, sizeof before, &before);
    came(corbelnib_priority(c.board.at, c.board.length, c.bytes.at, c.bytes.length, priority));
    say_signed(*priority);
}

static void scores(struct call c) {
    int64_t before = -7, *heuristic = lend(1, sizeof before, &before);
    before = -8;
    int64_t *progress = lend(1, sizeof before, &before);
    came(corbelnib_scores(c.board.at, c.board.length, heuristic, progress));
    say_signed(*heuristic);
    say_signed(*progress);
}

static void signature(struct call c) {
    uint64_t *signature = lend_longs(1, 7);
    came(corbelnib_signature(c.board.at, c.board.length, signature));
    say(*signature);
}

static void features(struct call c) {
    uint64_t *features = lend_longs(FEATURES, 7);
    came(corbelnib_features(c.board.at, c.board.length, features, at_most(c.length, FEATURES)));
    say_longs(features, FEATURES);
}

/* Four lengths in three bytes each; a flag that is not 0 has them taken as so many times 65,536. */
static void capacity(struct call c) {
    size_t lengths[4];
    for (size_t i = 0; i < 4; i++) {
        lengths[i] = number_at(c.bytes, 3 * i, 3) * (c.kind == 0 ? 1 : 65536);
    }
    say(corbelnib_capacity(lengths[0], lengths[1], lengths[2], lengths[3]));
    taken_back();
}

/* Beside the board stand the budget, three bytes, and the length of each part of the scratch, a byte each. */
static void judge(struct call c) {
    size_t lengths[4], rooms[4] = {NODES, HEAP, KEYS, COSTS};
    for (size_t i = 0; i < 4; i++) {
        lengths[i] = at_most(number_at(c.bytes, 3 + i, 1), rooms[i]);
    }
    struct corbelnib_scratch s = {lend_words(NODES, 7), lengths[0], lend_longs(HEAP, 7), lengths[1],
                                  lend_longs(KEYS, 7), lengths[2], lend_bytes(COSTS, MARK), lengths[3]};
    size_t *pops = lend_number(7), *moves = lend_number(8);
    told(corbelnib_judge(c.board.at, c.board.length, number_at(c.bytes, 0, 3), c.kind, CORBELNIB_SCRATCH(s), c.room, c.length, pops, moves),
         pops);
    say(*moves);
    say_words(s.nodes, NODES);
    say_longs(s.heap, HEAP);
    say_longs(s.keys, KEYS);
    say(sum(s.costs, COSTS));
}

/* What a table asks about a place, eight bytes beside the board. */
static void place(struct call c) {
    size_t place = number_at(c.bytes, 0, 8), *count = lend_number(7);
    uint8_t *code = lend_bytes(1, 7);
    switch (c.function) {
    case 17: told_byte(corbelnib_top(c.board.at, c.board.length, place, code), code); break;
    case 18: told_byte(corbelnib_cell(c.board.at, c.board.length, place, code), code); break;
    case 19: told(corbelnib_home(c.board.at, c.board.length, place, count), count); break;
    default: told(corbelnib_most(c.board.at, c.board.length, place, count), count); break;
    }
}

/* What writes into the room and tells a number, or a byte. */
static void counted(struct call c) {
    const uint8_t *board = c.board.at;
    size_t size = c.board.length, *count = lend_number(7);
    uint8_t *won = lend_bytes(1, 7);
    switch (c.function) {
    case 5: told(corbelnib_replay(board, size, c.bytes.at, c.bytes.length, c.room, c.length, count), count); break;
    case 6: told(corbelnib_chain(board, size, c.room, c.length, count), count); break;
    case 7: told(corbelnib_moves(board, size, c.kind, c.room, c.length, count), count); break;
    case 8: told(corbelnib_candidates(board, size, c.room, c.length, count), count); break;
    case 9: told(corbelnib_token(board, size, c.room, c.length, count), count); break;
    case 21: told_byte(corbelnib_won(board, size, won), won); break;
    default: told(corbelnib_safe(board, size, c.room, c.length, count), count); break;
    }
}

static void called(struct call c) {
    switch (c.function) {
    case 1: came(corbelnib_examine(c.board.at, c.board.length)); break;
    case 2: came(corbelnib_read(c.bytes.at, c.bytes.length, c.room, c.length)); break;
    case 3: came(corbelnib_deal(c.bytes.at, c.bytes.length, c.room, c.length)); break;
    case 4: came(corbelnib_move(c.board.at, c.board.length, c.bytes.at, c.bytes.length, c.room, c.length)); break;
    case 5: case 6: case 7: case 8: case 9: case 21: case 22: counted(c); break;
    case 10: priority(c); break;
    case 11: scores(c); break;
    case 12: signature(c); break;
    case 13: features(c); break;
    case 14: capacity(c); break;
    case 15: judge(c); break;
    case 16: came(corbelnib_number(number_at(c.bytes, 0, 8), c.room, c.length)); break;
    case 17: case 18: case 19: case 20: place(c); break;
    default: wrong_input("no such function");
    }
}

/* One case, and the line that it gives. */
static void asked(struct bytes head, struct bytes s) {
    size_t size = number_at(head, 9, 2);
    struct call c = {head.at[0] % ITSELF, head.at[8], give(board_in(head, rest(s, size))), give(part(s, 0, size)),
                     lend_bytes(ROOM, MARK), at_most(number_at(head, 1, 2), ROOM)};
    say(c.function);
    called(c);
    say(sum(c.room, ROOM));
    puts("");
}

int main(void) {
    struct bytes s = all_input();
    while (s.length > 0) {
        size_t size = number_at(s, 0, 2);
        asked(part(s, 2, 11), part(s, 13, size));
        s = rest(s, 13 + size);
    }
    return 0;
}
