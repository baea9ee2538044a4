/* Judges the board image in a file: judge FILE [BUDGET [NODES [partial]]]
 * Prints the answer, the pops and the number of moves, then a line for each move: kind, from, to, count, card.
 * A refusal prints its number alone. */
#include <stdbool.h>
#include <stdio.h>
#include <stdlib.h>
#include <string.h>

#include "corbelnib.h"

/* No image of a well-formed board is longer than 71 bytes; a file with more than these is no image, which is 10. */
#define IMAGE_MOST 1024

static bool number_in(const char *word, size_t *number) {
    char *end;
    unsigned long long n = strtoull(word, &end, 10);
    *number = (size_t)n;
    return end != word && *end == '\0' && *word != '-';
}

static void print_list(uint8_t answer, size_t pops, const uint8_t *list, size_t moves) {
    printf("%d %zu %zu\n", answer, pops, moves);
    for (size_t i = 0; i < moves; i++) {
        const uint8_t *m = list + CORBELNIB_MOVE * i;
        printf("%d %d %d %d %d\n", m[0], m[1], m[2], m[3], m[4]);
    }
}

static int judge(const uint8_t *image, size_t length, size_t budget, size_t capacity, uint8_t partial) {
    uint8_t board[CORBELNIB_BOARD], list[CORBELNIB_LIST];
    uint8_t refused = corbelnib_read(image, length, board, sizeof board);
    if (refused) {
        printf("%d\n", refused);
        return EXIT_SUCCESS;
    }
    size_t bytes = corbelnib_scratch_bytes(capacity), pops, moves;
    void *block = capacity > SIZE_MAX / 64 ? NULL : malloc(bytes + 1); /* one more, so that there is a block for no node */
    if (!block) {
        fprintf(stderr, "no memory for %zu nodes\n", capacity);
        return EXIT_FAILURE;
    }
    struct corbelnib_scratch scratch = corbelnib_carve(block, bytes);
    uint8_t answer = corbelnib_judge(board, sizeof board, budget, partial, CORBELNIB_SCRATCH(scratch), list, sizeof list, &pops, &moves);
    if (CORBELNIB_IS_ANSWER(answer)) {
        print_list(answer, pops, list, moves);
    } else {
        printf("%d\n", answer);
    }
    free(block);
    return EXIT_SUCCESS;
}

int main(int argc, char **argv) {
    size_t budget = 100000, capacity = 1000000;
    bool right = 2 <= argc && argc <= 5;
    right = right && (argc < 3 || number_in(argv[2], &budget));
    right = right && (argc < 4 || number_in(argv[3], &capacity));
    right = right && (argc < 5 || strcmp(argv[4], "partial") == 0);
    if (!right) {
        fprintf(stderr, "usage: %s FILE [BUDGET [NODES [partial]]]\n", argv[0]);
        return 2;
    }
    FILE *file = fopen(argv[1], "rb");
    if (!file) {
        perror(argv[1]);
        return EXIT_FAILURE;
    }
    uint8_t image[IMAGE_MOST + 1];
    size_t length = fread(image, 1, sizeof image, file);
    fclose(file);
    if (length > IMAGE_MOST) {
        printf("10\n");
        return EXIT_SUCCESS;
    }
    return judge(image, length, budget, capacity, argc == 5);
}
