#include "json.h"

#include <stdio.h>
#include <stdlib.h>
#include <string.h>

/* An answer has depth 4; whatever lies much deeper is no answer, and the stack has an end. */
#define DEPTH_MOST 16

/* An answer has 16 names, and each is looked for among those before it. */
#define NAMES_MOST 64

/* Every value takes a byte of the input at least, and every text no more bytes than stand there: room for all is lent at the start. */
struct reader {
    const uint8_t *bytes;
    size_t length, at, line, start; /* `start` is where the line begins */
    struct json *values;
    size_t used;
    char *texts;
    size_t written;
    struct said *why;
};

static bool read_value(struct reader *r, size_t depth, struct json **value);

static int peek(const struct reader *r) {
    return r->at < r->length ? r->bytes[r->at] : EOF;
}

static bool expected(struct reader *r, const char *what) {
    say(r->why, "line %zu, column %zu: %s expected", r->line, r->at - r->start + 1, what);
    return false;
}

static void skip_space(struct reader *r) {
    for (int c; (c = peek(r)) == ' ' || c == '\t' || c == '\n' || c == '\r';) {
        r->at++;
        if (c == '\n') {
            r->line++;
            r->start = r->at;
        }
    }
}

static bool take(struct reader *r, char c) {
    bool there = peek(r) == c;
    r->at += there;
    return there;
}

static struct json *new_value(struct reader *r, enum json_kind kind) {
    struct json *value = &r->values[r->used++];
    memset(value, 0, sizeof *value);
    value->kind = kind;
    value->line = r->line;
    value->column = r->at - r->start + 1;
    return value;
}

static bool read_word(struct reader *r, const char *word, enum json_kind kind, struct json **value) {
    size_t length = strlen(word);
    if (r->length - r->at < length || memcmp(r->bytes + r->at, word, length) != 0) {
        return expected(r, "a value is");
    }
    *value = new_value(r, kind);
    r->at += length;
    return true;
}

static bool is_digit(int c) {
    return c >= '0' && c <= '9';
}

/* One digit at least; `whole` goes where they are more than 64 bits hold. */
static bool read_digits(struct reader *r, struct json *value) {
    if (!is_digit(peek(r))) {
        return expected(r, "a digit is");
    }
    for (; is_digit(peek(r)); r->at++) {
        uint64_t digit = (uint64_t)(peek(r) - '0');
        value->whole = value->whole && value->size <= (UINT64_MAX - digit) / 10;
        value->size = value->whole ? value->size * 10 + digit : 0;
    }
    return true;
}

static bool read_number(struct reader *r, struct json **number) {
    struct json *value = *number = new_value(r, JSON_NUMBER);
    struct json beyond = {.whole = false};
    value->whole = true;
    value->negative = take(r, '-');
    if (peek(r) == '0' && r->at + 1 < r->length && is_digit(r->bytes[r->at + 1])) {
        return expected(r, "a number without a 0 before it is");
    }
    if (!read_digits(r, value)) {
        return false;
    }
    if (take(r, '.')) {
        value->whole = false;
        if (!read_digits(r, &beyond)) {
            return false;
        }
    }
    if (take(r, 'e') || take(r, 'E')) {
        value->whole = false;
        if (!take(r, '+')) {
            take(r, '-');
        }
        return read_digits(r, &beyond);
    }
    return true;
}

static bool read_hex(struct reader *r, unsigned *unit) {
    *unit = 0;
    for (int i = 0; i < 4; i++) {
        static const char digits[] = "0123456789abcdef0123456789ABCDEF";
        int c = peek(r);
        const char *found = c > 0 ? strchr(digits, c) : NULL;
        if (!found) {
            return expected(r, "a hexadecimal digit is");
        }
        *unit = *unit * 16 + (unsigned)((found - digits) % 16);
        r->at++;
    }
    return true;
}

/* UTF-8 never takes more bytes than the escapes that it stands for. */
static void put_utf8(struct reader *r, unsigned c) {
    static const unsigned firsts[] = {0, 0xc0, 0xe0, 0xf0};
    int more = c < 0x80 ? 0 : c < 0x800 ? 1 : c < 0x10000 ? 2 : 3;
    r->texts[r->written++] = (char)(firsts[more] | c >> (6 * more));
    while (more-- > 0) {
        r->texts[r->written++] = (char)(0x80 | (c >> (6 * more) & 0x3f));
    }
}

static bool read_unicode(struct reader *r) {
    unsigned first, second;
    if (!read_hex(r, &first)) {
        return false;
    }
    if (first < 0xd800 || first > 0xdfff) {
        put_utf8(r, first);
        return true;
    }
    if (first > 0xdbff || !take(r, '\\') || !take(r, 'u')) {
        return expected(r, "a pair of surrogates is");
    }
    if (!read_hex(r, &second)) {
        return false;
    }
    if (second < 0xdc00 || second > 0xdfff) {
        return expected(r, "a pair of surrogates is");
    }
    put_utf8(r, 0x10000 + ((first - 0xd800) << 10) + (second - 0xdc00));
    return true;
}

static bool read_escape(struct reader *r) {
    static const char signs[] = "\"\\/bfnrt", meant[] = "\"\\/\b\f\n\r\t";
    int c = peek(r);
    const char *found = c > 0 ? strchr(signs, c) : NULL;
    if (found) {
        r->texts[r->written++] = meant[found - signs];
        r->at++;
        return true;
    }
    return take(r, 'u') ? read_unicode(r) : expected(r, "one of \"\\/bfnrtu is");
}

static bool read_text(struct reader *r, const char **text, size_t *length) {
    char *start = r->texts + r->written;
    if (!take(r, '"')) {
        return expected(r, "a text in quotation marks is");
    }
    while (!take(r, '"')) {
        int c = peek(r);
        if (c == EOF || c < ' ') {
            return expected(r, "the quotation mark that ends the text is");
        }
        r->at++;
        if (c != '\\') {
            r->texts[r->written++] = (char)c;
        } else if (!read_escape(r)) {
            return false;
        }
    }
    *text = start;
    *length = (size_t)(r->texts + r->written - start);
    r->texts[r->written++] = '\0';
    return true;
}

static bool read_name(struct reader *r, const struct json *object, const char **name) {
    size_t length;
    skip_space(r);
    size_t before = r->at;
    if (!read_text(r, name, &length)) {
        return false;
    }
    if (json_member(object, *name) || strlen(*name) != length) {
        r->at = before;
        return expected(r, "a name that was not there before is");
    }
    skip_space(r);
    return take(r, ':') || expected(r, "a colon is");
}

/* What stands between the brackets of an array or an object, and the closing one. */
static bool read_parts(struct reader *r, size_t depth, struct json *whole, char close) {
    struct json **last = &whole->child;
    bool named = whole->kind == JSON_OBJECT;
    size_t names = 0;
    r->at++;
    skip_space(r);
    if (take(r, close)) {
        return true;
    }
    do {
        const char *name = NULL;
        if (named && names++ == NAMES_MOST) {
            return expected(r, "no object of so many names is");
        }
        if (named && !read_name(r, whole, &name)) {
            return false;
        }
        struct json *part;
        if (!read_value(r, depth + 1, &part)) {
            return false;
        }
        part->name = name;
        *last = part;
        last = &part->next;
        skip_space(r);
    } while (take(r, ','));
    return take(r, close) || expected(r, named ? "a comma or } is" : "a comma or ] is");
}

static bool read_value(struct reader *r, size_t depth, struct json **value) {
    skip_space(r);
    int c = peek(r);
    if (depth == DEPTH_MOST) {
        return expected(r, "no value so deep is");
    }
    if (c == '{' || c == '[') {
        *value = new_value(r, c == '{' ? JSON_OBJECT : JSON_ARRAY);
        return read_parts(r, depth, *value, c == '{' ? '}' : ']');
    }
    if (c == '"') {
        *value = new_value(r, JSON_TEXT);
        return read_text(r, &(*value)->text, &(*value)->length);
    }
    if (c == '-' || is_digit(c)) {
        return read_number(r, value);
    }
    if (c == 't') {
        return read_word(r, "true", JSON_TRUE, value);
    }
    return c == 'f' ? read_word(r, "false", JSON_FALSE, value) : read_word(r, "null", JSON_NULL, value);
}

bool json_read(const uint8_t *bytes, size_t length, struct json_tree *tree, struct said *why) {
    tree->values = malloc((length + 1) * sizeof *tree->values);
    tree->texts = malloc(length + 1);
    if (!tree->values || !tree->texts) {
        say(why, "no memory to read it");
        return false;
    }
    struct reader r = {bytes, length, 0, 1, 0, tree->values, 0, tree->texts, 0, why};
    struct json *whole;
    if (!read_value(&r, 0, &whole)) {
        return false;
    }
    skip_space(&r);
    return r.at == length || expected(&r, "nothing more is");
}

void json_free(struct json_tree *tree) {
    free(tree->values);
    free(tree->texts);
}

const struct json *json_member(const struct json *object, const char *name) {
    if (object->kind != JSON_OBJECT) {
        return NULL;
    }
    const struct json *member = object->child;
    while (member && strcmp(member->name, name) != 0) {
        member = member->next;
    }
    return member;
}
