/* What the oracle_ programs share (oracle.h). */
#include "oracle.h"

#include <inttypes.h>
#include <stdio.h>
#include <stdlib.h>
#include <string.h>

#include "corbelnib.h"

#define EDGE 16
#define MOST_LENT 16
#define INPUT 1000000
/* a board, and a little more */
#define BOARD_ROOM 440

void wrong_input(const char *why) {
    fflush(stdout);
    fprintf(stderr, "wrong input: %s\n", why);
    exit(2);
}

static void wrong(const char *what) {
    fflush(stdout);
    fprintf(stderr, "in the line behind this: %s\n", what);
    exit(1);
}

struct bytes all_input(void) {
    static uint8_t input[INPUT];
    struct bytes s = {input, fread(input, 1, sizeof input, stdin)};
    if (ferror(stdin) || !feof(stdin)) {
        wrong_input("it cannot be read, or is too long");
    }
    return s;
}

struct bytes part(struct bytes s, size_t from, size_t length) {
    if (from > s.length || length > s.length - from) {
        wrong_input("it is cut short");
    }
    struct bytes found = {s.at + from, length};
    return found;
}

struct bytes rest(struct bytes s, size_t from) {
    if (from > s.length) {
        wrong_input("it is cut short");
    }
    return part(s, from, s.length - from);
}

uint64_t number_at(struct bytes s, size_t from, size_t size) {
    struct bytes digits = part(s, from, size);
    uint64_t n = 0;
    for (size_t i = 0; i < size; i++) {
        n = n * 256 + digits.at[i];
    }
    return n;
}

/* Everything lent and not yet taken back lies in one block, in words so that any element is aligned. */
static uint64_t block[200000];
static struct {
    uint8_t *at;
    size_t bytes;
    const uint8_t *given;
} lent[MOST_LENT];
static size_t lent_count, words_used;

static uint8_t edge(size_t place) {
    return (uint8_t)(113 * place + 29);
}

static void *between_edges(size_t bytes, const uint8_t *given) {
    size_t words = (EDGE + bytes + EDGE + 7) / 8;
    if (lent_count == MOST_LENT || words > sizeof block / sizeof *block - words_used) {
        wrong_input("it asks for too much memory");
    }
    uint8_t *start = (uint8_t *)(block + words_used);
    for (size_t i = 0; i < EDGE; i++) {
        start[i] = edge(i);
        start[EDGE + bytes + i] = edge(EDGE + i);
    }
    words_used += words;
    lent[lent_count].at = start + EDGE;
    lent[lent_count].bytes = bytes;
    lent[lent_count].given = given;
    lent_count++;
    return start + EDGE;
}

void *lend(size_t count, size_t size, const void *filled) {
    uint8_t *at = between_edges(count * size, NULL);
    for (size_t i = 0; i < count; i++) {
        memcpy(at + i * size, filled, size);
    }
    return at;
}

uint8_t *lend_bytes(size_t count, uint8_t filled) {
    return lend(count, sizeof filled, &filled);
}

uint32_t *lend_words(size_t count, uint32_t filled) {
    return lend(count, sizeof filled, &filled);
}

uint64_t *lend_longs(size_t count, uint64_t filled) {
    return lend(count, sizeof filled, &filled);
}

size_t *lend_number(size_t filled) {
    return lend(1, sizeof filled, &filled);
}

struct bytes give(struct bytes s) {
    uint8_t *at = between_edges(s.length, s.at);
    memcpy(at, s.at, s.length);
    struct bytes given = {at, s.length};
    return given;
}

void taken_back(void) {
    for (size_t k = 0; k < lent_count; k++) {
        const uint8_t *at = lent[k].at;
        for (size_t i = 0; i < EDGE; i++) {
            if (at[i - EDGE] != edge(i) || at[lent[k].bytes + i] != edge(EDGE + i)) {
                wrong("memory beside what was lent is written");
            }
        }
        if (lent[k].given != NULL && memcmp(at, lent[k].given, lent[k].bytes) != 0) {
            wrong("memory that is only to be read is written");
        }
    }
    lent_count = 0;
    words_used = 0;
}

void holds(const char *what, const void *at, size_t bytes, uint8_t value) {
    const uint8_t *held = at;
    for (size_t i = 0; i < bytes; i++) {
        if (held[i] != value) {
            wrong(what);
        }
    }
}

void say(uint64_t n) {
    printf("%" PRIu64 " ", n);
}

void say_signed(int64_t n) {
    printf("%" PRId64 " ", n);
}

void say_words(const uint32_t *list, size_t length) {
    for (size_t i = 0; i < length; i++) {
        say(list[i]);
    }
}

void say_longs(const uint64_t *list, size_t length) {
    for (size_t i = 0; i < length; i++) {
        say(list[i]);
    }
}

uint64_t sum(const uint8_t *room, size_t length) {
    uint64_t sum = 1;
    for (size_t i = 0; i < length; i++) {
        sum = sum % 4294967291 * 257 + room[i];
    }
    return sum;
}

size_t at_most(size_t length, size_t room) {
    if (length > room) {
        wrong_input("more than there is room for");
    }
    return length;
}

struct bytes board_in(struct bytes head, struct bytes s) {
    static uint8_t board[BOARD_ROOM];
    memset(board, 0, sizeof board);
    if (head.at[0] < ITSELF) {
        corbelnib_read(s.at, s.length, board, sizeof board);
    } else {
        memcpy(board, s.at, at_most(s.length, sizeof board));
    }
    size_t put = number_at(head, 5, 2);
    if (put < sizeof board) {
        board[put] = head.at[7];
    }
    struct bytes given = {board, at_most(number_at(head, 3, 2), sizeof board)};
    return given;
}
