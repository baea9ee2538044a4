/* Reads damaged inputs through every reader of the command: damage COUNT SEED FILE..
 * Each of COUNT inputs is one of the files, damaged one to eight times: bytes changed, taken out, put in or doubled, the rest cut off. The
 * same seed gives the same inputs. Prints how many there were and how many were still accepted. */
#include <stdio.h>
#include <stdlib.h>
#include <string.h>

#include "read_all.h"

#define FILES_MOST 64
#define INPUT_ROOM ((size_t)64 * 1024)
#define DAMAGES_MOST 8
#define CHUNK_MOST 40

struct sample {
    uint8_t *bytes;
    size_t length;
};

/* xorshift64: all that is asked of it is that a seed gives the same numbers again. */
static uint64_t state;

static size_t drawn(size_t below) {
    state ^= state << 13;
    state ^= state >> 7;
    state ^= state << 17;
    return (size_t)(state >> 11) % below;
}

static bool load(const char *name, struct sample *sample) {
    FILE *file = fopen(name, "rb");
    if (!file) {
        perror(name);
        return false;
    }
    sample->bytes = malloc(INPUT_ROOM);
    sample->length = sample->bytes ? fread(sample->bytes, 1, INPUT_ROOM / 2, file) : 0;
    fclose(file);
    return sample->length > 0;
}

/* A byte that a reader may know: one of the input's own, a sign of some notation, or any. */
static uint8_t some_byte(const uint8_t *bytes, size_t length) {
    static const char signs[] = "A23456789TJQK10CDHScdhsabv:-*, \t\n\r\"\\{}[]u.eE+";
    switch (drawn(3)) {
    case 0:
        return length ? bytes[drawn(length)] : 0;
    case 1:
        return (uint8_t)signs[drawn(sizeof signs - 1)];
    default:
        return (uint8_t)drawn(256);
    }
}

static size_t insert(uint8_t *bytes, size_t length, size_t at, const uint8_t *chunk, size_t count) {
    if (length + count > INPUT_ROOM) {
        return length;
    }
    memmove(bytes + at + count, bytes + at, length - at);
    memcpy(bytes + at, chunk, count);
    return length + count;
}

static size_t damage(uint8_t *bytes, size_t length) {
    size_t at = drawn(length + 1), count = drawn(CHUNK_MOST) + 1;
    uint8_t chunk[CHUNK_MOST];
    count = count < length - at ? count : length - at;
    memcpy(chunk, bytes + at, count);
    switch (drawn(5)) {
    case 0:
        chunk[0] = some_byte(bytes, length);
        return insert(bytes, length, at, chunk, 1);
    case 1:
        return insert(bytes, length, drawn(length + 1), chunk, count);
    case 2:
        memmove(bytes + at, bytes + at + count, length - at - count);
        return length - count;
    case 3:
        return drawn(4) ? length : at;
    default:
        if (at < length) {
            bytes[at] = some_byte(bytes, length);
        }
        return length;
    }
}

static void try_one(const struct sample *sample, struct accepted *accepted) {
    static uint8_t room[INPUT_ROOM];
    size_t length = sample->length;
    memcpy(room, sample->bytes, length);
    for (size_t damages = drawn(DAMAGES_MOST) + 1; damages > 0; damages--) {
        length = damage(room, length);
    }
    /* memory of its own size, so that a sanitizer sees a byte read beyond it */
    uint8_t *bytes = malloc(length + 1);
    if (bytes) {
        memcpy(bytes + 1, room, length);
        read_all(bytes + 1, length, accepted);
    }
    free(bytes);
}

int main(int argc, char **argv) {
    struct sample samples[FILES_MOST];
    struct accepted accepted = {0};
    if (argc < 4 || argc - 3 > FILES_MOST) {
        fprintf(stderr, "usage: %s COUNT SEED FILE..\n", argv[0]);
        return 64;
    }
    size_t count = strtoul(argv[1], NULL, 10), files = (size_t)argc - 3;
    state = strtoul(argv[2], NULL, 10) * 2 + 1;
    for (size_t i = 0; i < files; i++) {
        if (!load(argv[i + 3], &samples[i])) {
            return 66;
        }
    }
    for (size_t i = 0; i < count; i++) {
        try_one(&samples[drawn(files)], &accepted);
    }
    printf("%zu damaged inputs read; accepted: %zu boards, %zu lines, %zu lists of records, %zu solutions, %zu answers, %zu sheets\n", accepted.inputs,
           accepted.boards, accepted.lines, accepted.records, accepted.solutions, accepted.answers, accepted.sheets);
    for (size_t i = 0; i < files; i++) {
        free(samples[i].bytes);
    }
    return 0;
}
