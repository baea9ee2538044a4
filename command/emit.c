#include "emit.h"

#include <stdio.h>
#include <string.h>

#include "version.h"

/* ---- values */

/* How many bytes of the text are one character of UTF-8; 0 if they are none. */
static size_t character(const unsigned char *at) {
    size_t more = at[0] < 0x80 ? 0 : at[0] < 0xc2 ? 4 : at[0] < 0xe0 ? 1 : at[0] < 0xf0 ? 2 : at[0] < 0xf5 ? 3 : 4;
    if (more == 4) {
        return 0;
    }
    /* written longer than needed, a half of a pair, above the last one */
    bool none = (at[0] == 0xe0 && at[1] < 0xa0) || (at[0] == 0xed && at[1] > 0x9f) || (at[0] == 0xf0 && at[1] < 0x90) ||
                (at[0] == 0xf4 && at[1] > 0x8f);
    for (size_t i = 1; i <= more && !none; i++) {
        none = (at[i] & 0xc0) != 0x80;
    }
    return none ? 0 : more + 1;
}

void json_text(const char *text) {
    const unsigned char *at = (const unsigned char *)text;
    putchar('"');
    while (*at) {
        size_t bytes = character(at);
        if (bytes == 0) {
            printf("\\ufffd");
        } else if (*at == '"' || *at == '\\') {
            printf("\\%c", *at);
        } else if (*at < ' ' || *at == 0x7f) {
            printf("\\u%04x", *at);
        } else {
            fwrite(at, 1, bytes, stdout);
        }
        at += bytes ? bytes : 1;
    }
    putchar('"');
}

void json_hex(const uint8_t *bytes, size_t length) {
    putchar('"');
    for (size_t i = 0; i < length; i++) {
        printf("%02x", bytes[i]);
    }
    putchar('"');
}

/* ---- objects */

void object_open(struct object *object, bool one_line) {
    *object = (struct object){.one_line = one_line};
    putchar('{');
}

void object_close(struct object *object) {
    printf(object->one_line ? "}\n" : "\n}\n");
}

/* Before the next of some things: a comma behind the one before it, and a line of its own or a space. */
static void next(const struct object *object, size_t before, const char *indent) {
    printf(before ? "," : "");
    printf("%s", object->one_line ? (before ? " " : "") : indent);
}

void object_member(struct object *object, const char *name) {
    next(object, object->members++, "\n  ");
    printf("\"%s\": ", name);
}

void object_number(struct object *object, const char *name, size_t number) {
    object_member(object, name);
    printf("%zu", number);
}

void object_text(struct object *object, const char *name, const char *text) {
    object_member(object, name);
    if (text) {
        json_text(text);
    } else {
        printf("null");
    }
}

void object_flag(struct object *object, const char *name, bool flag) {
    object_member(object, name);
    printf(flag ? "true" : "false");
}

void object_hex(struct object *object, const char *name, const uint8_t *bytes, size_t length) {
    object_member(object, name);
    json_hex(bytes, length);
}

void object_rows(struct object *object, const char *name) {
    object_member(object, name);
    object->rows = 0;
    putchar('[');
}

void object_row(struct object *object) {
    next(object, object->rows++, "\n    ");
}

void object_rows_end(struct object *object) {
    printf(object->rows && !object->one_line ? "\n  ]" : "]");
}

/* ---- failures */

static bool in_json;

void failures_in_json(void) {
    in_json = true;
}

bool failures_are_json(void) {
    return in_json;
}

void failure_json(const char *who, const char *about, int number, const char *words) {
    struct object failure;
    object_open(&failure, true);
    object_text(&failure, "version", version_told());
    object_text(&failure, "command", who);
    object_text(&failure, "about", about);
    if (number < 0) {
        object_text(&failure, "refused", NULL);
    } else {
        object_number(&failure, "refused", (size_t)number);
    }
    object_text(&failure, "meaning", words);
    object_close(&failure);
}
