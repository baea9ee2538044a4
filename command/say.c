#include "say.h"

#include <stdarg.h>
#include <stdio.h>
#include <string.h>

#include "emit.h"
#include "fold.h"
#include "utf8.h"

/* No more of a wrong word is repeated than shows which one it is. */
#define QUOTED_MOST 24

void say(struct said *said, const char *format, ...) {
    size_t room = SAID_MOST - said->length;
    va_list words;
    va_start(words, format);
    int wanted = vsnprintf(said->text + said->length, room, format, words);
    va_end(words);
    if (wanted > 0) {
        said->length += (size_t)wanted < room ? (size_t)wanted : room - 1;
    }
}

struct grouped grouped(uint64_t number) {
    struct grouped grouped = {0};
    char digits[24];
    int count = snprintf(digits, sizeof digits, "%llu", (unsigned long long)number), to = 0;
    for (int i = 0; i < count; i++) {
        if (i > 0 && (count - i) % 3 == 0) {
            grouped.text[to++] = ',';
        }
        grouped.text[to++] = digits[i];
    }
    return grouped;
}

void say_number(struct said *said, size_t number) {
    say(said, "%s", grouped(number).text);
}

void say_count(struct said *said, size_t count, const char *one, const char *many) {
    say_number(said, count);
    say(said, " %s", count == 1 ? one : many);
}

void say_quoted(struct said *said, const unsigned char *word, size_t length) {
    size_t most = length;
    if (length > QUOTED_MOST) {
        most = QUOTED_MOST;
        /* no character is cut in two */
        while (most > 0 && (word[most] & 0xc0) == 0x80) {
            most--;
        }
    }
    say(said, "\"");
    say_shown(said, word, most);
    say(said, length > most ? "..\"" : "\"");
}

int complain(int status, const char *who, const char *format, ...) {
    struct said raw = {0}, said = {0};
    va_list words;
    va_start(words, format);
    vsnprintf(raw.text, sizeof raw.text, format, words);
    va_end(words);
    /* of an output that failed nothing can be told there */
    if (failures_are_json() && status != STATUS_NO_OUTPUT) {
        failure_json(who, NULL, -1, raw.text);
        return status;
    }
    say(&said, "corbelnib%s%s: ", who ? " " : "", who ? who : "");
    /* a name may be among the words */
    say_shown(&said, (const unsigned char *)raw.text, strlen(raw.text));
    print_folded(stderr, said.text);
    fputc('\n', stderr);
    return status;
}
