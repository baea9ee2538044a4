/* JSON for programs, written to standard output as it comes. Its reader is json.h. */
#ifndef COMMAND_EMIT_H
#define COMMAND_EMIT_H

#include <stdbool.h>
#include <stddef.h>
#include <stdint.h>

/* Prints a text in quotation marks. What is no UTF-8, as a file's name may be, is printed as U+FFFD. */
void json_text(const char *text);

/* Prints bytes in hexadecimal, in quotation marks. */
void json_hex(const uint8_t *bytes, size_t length);

/* An object with a member a line; or on one line, where several follow each other. */
struct object {
    bool one_line;
    size_t members, rows;
};

void object_open(struct object *object, bool one_line);
void object_close(struct object *object);

/* Begins a member, whose value is to be printed next; or a member with its value. A text that is NULL is null. */
void object_member(struct object *object, const char *name);
void object_number(struct object *object, const char *name, size_t number);
void object_text(struct object *object, const char *name, const char *text);
void object_flag(struct object *object, const char *name, bool flag);
void object_hex(struct object *object, const char *name, const uint8_t *bytes, size_t length);

/* A member that is an array with an element a line; each element is printed after object_row. */
void object_rows(struct object *object, const char *name);
void object_row(struct object *object);
void object_rows_end(struct object *object);

/* From now on complaints (say.h) and refusals (told.h) are objects on standard output. */
void failures_in_json(void);
bool failures_are_json(void);

/* A failure as an object on one line. Who and what it is about may be NULL, and the number of a refusal is below 0 where there is none. */
void failure_json(const char *who, const char *about, int number, const char *words);

#endif
