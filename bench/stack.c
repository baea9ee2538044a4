/* What each C call takes of the stack: the stack below is painted, the call made, and looked how far down the paint is gone.
 * bench/stack.sh builds and runs it. Hands by number, and boards up to 60 moves on; answers, and a refusal of each call. */
#include <alloca.h>
#include <stdio.h>
#include <string.h>

#include "corbelnib.h"

enum { PAINTED = 60000, HANDS = 40, STEPS = 60, NODES = 20000 };

static uint8_t board[CORBELNIB_BOARD], after[CORBELNIB_BOARD], records[CORBELNIB_RECORDS], list[CORBELNIB_LIST], text[64];
static uint8_t start[CORBELNIB_BOARD], deck[52], image[71] = {0, 69, 1, 255, 255, 255, 255};
static uint8_t line[CORBELNIB_MOVE * STEPS], costs[CORBELNIB_COSTS(NODES)];
static uint32_t nodes[CORBELNIB_NODES(NODES)];
static uint64_t heap[CORBELNIB_HEAP(NODES)], keys[CORBELNIB_KEYS(NODES)], features[CORBELNIB_FEATURES], hash;
static int64_t one, other;
static uint8_t paper[CORBELNIB_TEXT];
static uint64_t sheet[CORBELNIB_SHEET], sum[CORBELNIB_SHEET];
static size_t count, pops, moves, steps, hand, signs;

static void examine(void) { corbelnib_examine(board, sizeof board); }
static void number(void) { corbelnib_number(hand, after, sizeof after); }
static void move(void) { corbelnib_move(board, sizeof board, records, CORBELNIB_MOVE, after, sizeof after); }
static void candidates(void) { corbelnib_candidates(board, sizeof board, records, sizeof records, &count); }
static void priority(void) { corbelnib_priority(board, sizeof board, records, CORBELNIB_MOVE, &one); }
static void chain(void) { corbelnib_chain(board, sizeof board, after, sizeof after, &moves); }
static void seven_features(void) { corbelnib_features(board, sizeof board, features, CORBELNIB_FEATURES); }
static void scores(void) { corbelnib_scores(board, sizeof board, &one, &other); }
static void signature(void) { corbelnib_signature(board, sizeof board, &hash); }
static void token(void) { corbelnib_token(board, sizeof board, text, sizeof text, &count); }
static void capacity(void) { corbelnib_capacity(3 * NODES, NODES, 2 * NODES, 2 * NODES); }

static void all_moves(void) {
    for (uint8_t kind = 0; kind <= CORBELNIB_HOME_TO_COLUMN; kind++) {
        corbelnib_moves(board, sizeof board, kind, records, sizeof records, &count);
    }
}

static void deal(void) { corbelnib_deal(deck, sizeof deck, after, sizeof after); }

static void read_image(void) { corbelnib_read(image, sizeof image, after, sizeof after); }

static void replay(void) {
    corbelnib_replay(start, sizeof start, line, CORBELNIB_MOVE * steps, after, sizeof after, &count);
}

static void judge(void) {
    corbelnib_judge(board, sizeof board, 300, 1, nodes, CORBELNIB_NODES(NODES), heap, CORBELNIB_HEAP(NODES), keys,
                    CORBELNIB_KEYS(NODES), costs, CORBELNIB_COSTS(NODES), list, sizeof list, &pops, &moves);
}

static void write_line(void) {
    corbelnib_write_line(start, sizeof start, line, CORBELNIB_MOVE * steps, paper, sizeof paper, &signs);
}

static void read_line(void) {
    corbelnib_read_line(start, sizeof start, paper, signs, list, sizeof list, &count);
}

static void questions(void) {
    uint8_t code;
    corbelnib_top(board, sizeof board, hand % 9, &code);
    corbelnib_cell(board, sizeof board, hand % 5, &code);
    corbelnib_won(board, sizeof board, &code);
    corbelnib_home(board, sizeof board, hand % 5, &count);
    corbelnib_most(board, sizeof board, hand % 9, &count);
}

static void safe(void) { corbelnib_safe(board, sizeof board, after, sizeof after, &count); }

static void season(void) {
    corbelnib_season(hand, hand, 300, 1, nodes, CORBELNIB_NODES(NODES), heap, CORBELNIB_HEAP(NODES), keys,
                     CORBELNIB_KEYS(NODES), costs, CORBELNIB_COSTS(NODES), sheet, CORBELNIB_SHEET);
}

/* The season before it is added to those of the hands before. */
static void add(void) {
    if (hand == 1) {
        memcpy(sum, sheet, sizeof sum);
    }
    corbelnib_add(sum, CORBELNIB_SHEET, sheet, CORBELNIB_SHEET);
}

static const struct {
    const char *name;
    void (*call)(void);
} CALLS[] = {
    {"judge", judge},
    {"season", season},
    {"candidates", candidates},
    {"priority", priority},
    {"replay", replay},
    {"move", move},
    {"number", number},
    {"scores", scores},
    {"chain", chain},
    {"features", seven_features},
    {"token", token},
    {"moves", all_moves},
    {"read", read_image},
    {"signature", signature},
    {"examine", examine},
    {"deal", deal},
    {"capacity", capacity},
    {"write_line", write_line},
    {"read_line", read_line},
    {"add", add},
    {"questions", questions},
    {"safe", safe},
};
enum { MANY = sizeof CALLS / sizeof CALLS[0] };
static size_t most[MANY];

static __attribute__((noinline)) void paint(void) {
    volatile uint8_t *below = alloca(PAINTED);
    for (size_t i = 0; i < PAINTED; i++) {
        below[i] = 0xa5;
    }
}

static __attribute__((noinline)) size_t gone(void) {
    volatile uint8_t *below = alloca(PAINTED);
    size_t i = 0;
    while (i < PAINTED && below[i] == 0xa5) {
        i++;
    }
    return PAINTED - i;
}

/* Every call on this board. `candidates` comes before those that play the first of its records. */
static void measure(void) {
    corbelnib_candidates(board, sizeof board, records, sizeof records, &count);
    for (int i = 0; i < MANY; i++) {
        paint();
        CALLS[i].call();
        size_t taken = gone();
        if (taken > most[i]) {
            most[i] = taken;
        }
    }
}

/* A move of the candidates, another one at each step. */
static int play_on(void) {
    corbelnib_candidates(board, sizeof board, records, sizeof records, &count);
    if (count == 0) {
        return 0;
    }
    uint8_t *record = records + CORBELNIB_MOVE * (steps * 7 % count);
    memcpy(line + CORBELNIB_MOVE * steps, record, CORBELNIB_MOVE);
    corbelnib_move(board, sizeof board, record, CORBELNIB_MOVE, after, sizeof after);
    memcpy(board, after, sizeof board);
    steps++;
    return 1;
}

/* The pack in its order as a deck, and the image of its deal. */
static void lay_out(void) {
    size_t at = 11;
    for (int i = 0; i < 8; i++) {
        uint8_t cards = i < 4 ? 7 : 6;
        image[at++] = cards;
        for (int place = i; place < 52; place += 8) {
            deck[place] = (uint8_t)((place / 4 + 1) * 16 + place % 4);
            image[at++] = deck[place];
        }
    }
}

int main(void) {
    lay_out();
    for (hand = 1; hand <= HANDS; hand++) {
        corbelnib_number(hand, board, sizeof board);
        memcpy(start, board, sizeof start);
        steps = 0;
        measure();
        while (steps < STEPS && play_on()) {
            if (steps % 12 == 0) {
                measure();
            }
        }
        board[0] = 0;
        measure();
    }
    for (int i = 0; i < MANY; i++) {
        printf("%-12s %6zu\n", CALLS[i].name, most[i]);
    }
    return 0;
}
