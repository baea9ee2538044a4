#include "told.h"

#include <stddef.h>

#include "corbelnib_says.h"
#include "emit.h"

/* The list of corbelnib_says.h has words for every number that a call hands back. */
static const char *words_of(uint8_t number) {
    const char *words = corbelnib_says(number);
    return words ? words : "This number is not known here.";
}

const char *refusal_words(uint8_t number) {
    return words_of(number);
}

const char *answer_words(uint8_t answer) {
    return words_of(answer);
}

void refuse(struct refusal *refusal, uint8_t number) {
    refusal->number = number;
    say(&refusal->words, "%s (%u)", refusal_words(number), number);
}

void tell_refusal(const char *who, const char *name, const struct refusal *refusal) {
    if (failures_are_json()) {
        failure_json(who, name, refusal->number, refusal->words.text);
    } else {
        complain(0, who, "%s: %s", name, refusal->words.text);
    }
}
