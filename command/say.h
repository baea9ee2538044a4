/* What the command tells: its statuses, text of a bounded size, and words on standard error. */
#ifndef COMMAND_SAY_H
#define COMMAND_SAY_H

#include <stddef.h>
#include <stdint.h>

enum status {
    STATUS_DONE = 0,       /* won, legal, both can be right */
    STATUS_NO = 1,         /* not won, or a move that is not legal */
    STATUS_REFUSED = 2,    /* a board, a text, a setting or a sheet is refused */
    STATUS_IMPOSSIBLE = 3, /* two answers that cannot both be right */
    STATUS_USAGE = 64,
    STATUS_NO_INPUT = 66,
    STATUS_NO_MEMORY = 71,
    STATUS_NO_FILE = 73, /* a file cannot be made */
    STATUS_NO_OUTPUT = 74,
    STATUS_STOPPED = 130 /* by Ctrl-C, as shells count it */
};

#ifdef __GNUC__
#define SAYS(at, first) __attribute__((format(printf, at, first)))
#else
#define SAYS(at, first)
#endif

/* Text that grows up to a fixed size. What does not fit is left out. */
#define SAID_MOST 8192
struct said {
    size_t length;
    char text[SAID_MOST];
};

void say(struct said *said, const char *format, ...) SAYS(2, 3);

/* A number with commas, 1,000,000: as a text of its own, and said. */
struct grouped {
    char text[32];
};
struct grouped grouped(uint64_t number);
void say_number(struct said *said, size_t number);

/* "1 move", "98 moves". */
void say_count(struct said *said, size_t count, const char *one, const char *many);

/* A word from outside in quotation marks, as it may be shown (utf8.h), and no more than a few characters of it. */
void say_quoted(struct said *said, const unsigned char *word, size_t length);

/* Prints "corbelnib WHO: .." on standard error, or an object on standard output where failures are JSON (emit.h), and hands the status back. */
int complain(int status, const char *who, const char *format, ...) SAYS(3, 4);

#endif
