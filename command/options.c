#include "options.h"

#include <string.h>

#include "amount.h"
#include "say.h"

int wrong_use(const char *who, const char *what) {
    return complain(STATUS_USAGE, who, "%s; `corbelnib %s --help` tells more", what, who);
}

/* An option by its name, which may have =value behind it. */
static const struct option *named(const struct option *options, const char *word) {
    size_t length = strcspn(word, "=");
    for (; options->name; options++) {
        if (strlen(options->name) == length && strncmp(options->name, word, length) == 0) {
            return options;
        }
    }
    return NULL;
}

static int wrong_word(const char *who, const char *word, const char *why) {
    struct said said = {0};
    say_quoted(&said, (const unsigned char *)word, strlen(word));
    say(&said, " %s", why);
    return wrong_use(who, said.text);
}

/* Takes one option, and the word after it if that is its value. */
static int take(const char *who, int argc, char **argv, int *at, const struct option *options) {
    const char *word = argv[*at];
    const struct option *option = named(options, word);
    const char *equals = strchr(word, '=');
    if (!option) {
        return wrong_word(who, word, "is no option");
    }
    if (option->flag) {
        *option->flag = true;
        return equals ? wrong_word(who, option->name, "takes no value") : STATUS_DONE;
    }
    if (!equals && *at + 1 >= argc) {
        return wrong_word(who, option->name, "wants a value");
    }
    *option->value = equals ? equals + 1 : argv[++*at];
    return STATUS_DONE;
}

int options_part(const char *who, int argc, char **argv, const struct option *options, size_t most, struct wordlist *words) {
    bool ended = false;
    words->count = 0;
    words->word = argv;
    for (int i = 0; i < argc; i++) {
        bool dashed = argv[i][0] == '-' && argv[i][1] != '\0';
        if (!ended && strcmp(argv[i], "--") == 0) {
            ended = true;
        } else if (!ended && dashed) {
            int status = take(who, argc, argv, &i, options);
            if (status != STATUS_DONE) {
                return status;
            }
        } else if (words->count < most) {
            words->word[words->count++] = argv[i];
        } else {
            return wrong_word(who, argv[i], "is one word too many");
        }
    }
    return STATUS_DONE;
}

static int wrong_amount(const char *who, const char *option, const char *word, enum amount amount, const char *expected) {
    struct said said = {0};
    say(&said, "%s ", option);
    say_quoted(&said, (const unsigned char *)word, strlen(word));
    say(&said, amount == AMOUNT_TOO_LARGE ? " is more than can be counted here; %s expected" : " is no amount; %s expected", expected);
    return wrong_use(who, said.text);
}

int option_number(const char *who, const char *option, const char *word, size_t *number) {
    enum amount amount = word ? amount_number(word, number) : AMOUNT_READ;
    return amount == AMOUNT_READ ? STATUS_DONE : wrong_amount(who, option, word, amount, "decimal digits are");
}

int option_memory(const char *who, const char *option, const char *word, size_t *bytes) {
    enum amount amount = word ? amount_memory(word, bytes) : AMOUNT_READ;
    return amount == AMOUNT_READ ? STATUS_DONE : wrong_amount(who, option, word, amount, "decimal digits and perhaps K, M or G are");
}
