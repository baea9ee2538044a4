/* What the oracle_ programs share. Each calls the library as the input says and writes what comes back and what stands then in every lent
 * place; tests/oracles/ has the inputs and what has to be written (compare/ makes both). */
#ifndef ORACLE_H
#define ORACLE_H

#include <stddef.h>
#include <stdint.h>

/* What lent bytes hold before a call. */
#define MARK 165

/* A part of the input. */
struct bytes {
    const uint8_t *at;
    size_t length;
};

/* Ends the program with status 2: the input is not as it has to be. */
_Noreturn void wrong_input(const char *why);

/* All of standard input. */
struct bytes all_input(void);

/* So many bytes from a place; and all from a place. The input has them, or the program ends. */
struct bytes part(struct bytes s, size_t from, size_t length);
struct bytes rest(struct bytes s, size_t from);

/* So many bytes from a place as a number, the higher ones first. */
uint64_t number_at(struct bytes s, size_t from, size_t size);

/* Memory to lend: so many elements of a size, each filled with the same, between edges that nobody may touch. */
void *lend(size_t count, size_t size, const void *filled);
uint8_t *lend_bytes(size_t count, uint8_t filled);
uint32_t *lend_words(size_t count, uint32_t filled);
uint64_t *lend_longs(size_t count, uint64_t filled);
size_t *lend_number(size_t filled);

/* A copy between such edges that may only be read. */
struct bytes give(struct bytes s);

/* After a call: the edges of everything lent, and everything given, are as they were, or the program ends with status 1. What was lent
 * can be looked at until something is lent again. */
void taken_back(void);

/* Bytes that all have to hold a value, or the program ends with status 1. */
void holds(const char *what, const void *at, size_t bytes, uint8_t value);

/* A number, with a space behind it; and many. */
void say(uint64_t n);
void say_signed(int64_t n);
void say_words(const uint32_t *list, size_t length);
void say_longs(const uint64_t *list, size_t length);

/* A check sum in which each byte and its place count. */
uint64_t sum(const uint8_t *room, size_t length);

/* A number that may be no more than there is room for, or the program ends. */
size_t at_most(size_t length, size_t room);

/* The board of a case, whose head has: the function, with ITSELF added if the board's bytes stand there and not its image; two bytes; how
 * many bytes are given of it, two bytes; a place, two bytes, and the byte put there if there is such a place. It serves until the next one. */
#define ITSELF 128
struct bytes board_in(struct bytes head, struct bytes s);

#endif
