/* A strict reader of JSON. Its writer is emit.h. */
#ifndef COMMAND_JSON_H
#define COMMAND_JSON_H

#include <stdbool.h>
#include <stddef.h>
#include <stdint.h>

#include "say.h"

enum json_kind { JSON_NULL, JSON_FALSE, JSON_TRUE, JSON_NUMBER, JSON_TEXT, JSON_ARRAY, JSON_OBJECT };

/* A value that was read. Members and elements hang on `child`, one after the other by `next`. */
struct json {
    enum json_kind kind;
    size_t line, column; /* where it begins, counted from 1 */
    const char *name;    /* of a member; else NULL */
    const char *text;    /* of a text, with a 0 behind it */
    size_t length;
    bool whole;      /* a number that is an integer and fits below, its sign apart */
    bool negative;
    uint64_t size;
    struct json *child, *next;
};

struct json_tree {
    struct json *values; /* the first is the whole */
    char *texts;
};

/* Reads exactly one value. False if this is no JSON; `why` then says where and what was expected. */
bool json_read(const uint8_t *bytes, size_t length, struct json_tree *tree, struct said *why);
void json_free(struct json_tree *tree);

/* The member of an object, or NULL. */
const struct json *json_member(const struct json *object, const char *name);

#endif
