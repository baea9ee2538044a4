/* Reads and writes lines on paper through the library, and writes what comes back and what stands then in the lent room, for comparison with
 * a second reader and writer (compare/src/oracle_papers.rs).
 * Input, again and again: how many bytes come after the next ten, two bytes; the function, 1 for read_line, 2 for write_line; how much room
 * is lent, two bytes; how many bytes of the board are given, two bytes; a place of the board, two bytes, and the byte put there; how many
 * bytes the text or the list has, two bytes. After the ten: these bytes, and the board's image; or, if the function has 128 added, the
 * board itself. The higher byte of a number comes first.
 * Output, a line each: the function; the number that came; the number told; the records or the text, if there is one; a check sum of all the
 * room. */
#include <inttypes.h>
#include <stdio.h>

#include "corbelnib.h"
#include "oracle.h"

/* The room of which the first bytes are lent. */
#define ROOM 1010

static void records(const uint8_t *list, size_t moves) {
    for (size_t k = 0; k < CORBELNIB_MOVE * at_most(moves, ROOM / CORBELNIB_MOVE); k++) {
        say(list[k]);
    }
}

static void words(const uint8_t *text, size_t size) {
    printf("%.*s ", (int)at_most(size, ROOM), (const char *)text);
}

static void called(int reads, struct bytes board, struct bytes given, uint8_t *room, size_t length) {
    size_t *count = lend_number(7);
    uint8_t answer = (reads ? corbelnib_read_line : corbelnib_write_line)(board.at, board.length, given.at, given.length, room, length, count);
    taken_back();
    fputs(reads ? "read " : "write ", stdout);
    say(answer);
    say(*count);
    if (answer == CORBELNIB_DONE) {
        (reads ? records : words)(room, *count);
    }
}

/* One case, and the line that it gives. */
static void asked(struct bytes head, struct bytes s) {
    size_t size = number_at(head, 8, 2);
    struct bytes board = give(board_in(head, rest(s, size))), given = give(part(s, 0, size));
    uint8_t *room = lend_bytes(ROOM, MARK);
    called(head.at[0] % ITSELF == 1, board, given, room, at_most(number_at(head, 1, 2), ROOM));
    printf("%" PRIu64 "\n", sum(room, ROOM));
}

int main(void) {
    struct bytes s = all_input();
    while (s.length > 0) {
        size_t size = number_at(s, 0, 2);
        asked(part(s, 2, 10), part(s, 12, size));
        s = rest(s, 12 + size);
    }
    return 0;
}
