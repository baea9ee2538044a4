/* corbelnib judge: boards, judged. */
#include <stdio.h>
#include <string.h>

#include "amount.h"
#include "commands.h"
#include "given.h"
#include "lend.h"
#include "options.h"
#include "report.h"
#include "show.h"
#include "watch.h"

const char help_judge[] =
    "usage: corbelnib judge BOARD.. [--partial] [--budget N] [--memory SIZE] [--moves] [--picture [--ascii] [--colour]]\n"
    "                       [--line | --json]\n"
    "\n"
    "Looks for a winning line, on one board after the other. BOARD is a hand's number, 1 to 32,000, or a file (- is\n"
    "standard input) with a board as fc-solve reads it, or as deal, play or --picture print it, an image, or a record of\n"
    "432 bytes (docs/SCOPE.md), told apart by what they are. A file whose name is a number is written ./617.\n"
    "\n"
    "It looks at 1,000 boards first, in little memory, then at four times as many, and so on up to what was asked for, and\n"
    "says what a search with the settings asked for says. Between steps a line on a terminal tells how far it has come;\n"
    "Ctrl-C says what is known so far.\n"
    "\n"
    "  --partial      where no win is found, the line to the best board seen\n"
    "  --budget N     boards that are looked at, at most 1,000,000, which is the default (`season run` has 100,000)\n"
    "  --memory SIZE  bytes, or with K, M or G; 512M if it is not given, as a controller has. A board takes 38 bytes\n"
    "  --line         prints the line alone; the answer goes to standard error\n"
    "  --moves        the moves in words, one a line\n"
    "  --picture      the board after each move\n"
    "  --ascii        letters for suits in pictures, and no colour\n"
    "  --colour       colour even if the output is no terminal\n"
    "  --json         everything, for programs: an object, and of several boards one on a line each, in their order. A\n"
    "                 failure is an object too: version, command, about, refused (the library's number, or null), meaning\n"
    "\n"
    "examples: corbelnib judge 8\n"
    "          corbelnib judge 8 --moves\n"
    "          corbelnib deal 617 | corbelnib judge - --budget 20000 --partial\n"
    "          corbelnib judge hand.img --json > answer.json\n"
    "          corbelnib judge 1 2 3 --json > answers.jsonl\n"
    "\n"
    "status: 0 won, 1 not won, 2 refused, 64 wrong use, 66 no such file, 71 no memory, 74 the output failed,\n"
    "        130 stopped by Ctrl-C; the largest of several\n";

static const char who[] = "judge";

struct asked {
    const char *budget, *memory;
    bool partial, json, several;
    struct report report;
};

static int settle(const struct asked *asked, struct settings *settings) {
    settings->budget = CORBELNIB_BUDGET;
    settings->memory = MEMORY_USUAL;
    settings->partial = asked->partial;
    int status = option_number(who, "--budget", asked->budget, &settings->budget);
    if (status == STATUS_DONE) {
        status = option_memory(who, "--memory", asked->memory, &settings->memory);
    }
    settings->capacity = capacity_of(settings->memory);
    return status;
}

static int answer(const struct asked *asked, const struct given *given, const struct settings *settings) {
    struct verdict verdict;
    if (!judge_watched(who, given, settings, &verdict)) {
        return STATUS_NO_MEMORY;
    }
    if (!CORBELNIB_IS_ANSWER(verdict.told)) {
        struct refusal refusal = {0};
        refuse(&refusal, verdict.told);
        tell_refusal(who, verdict.told == CORBELNIB_OVER_BUDGET ? "--budget" : "--memory", &refusal);
        return STATUS_REFUSED;
    }
    if (asked->json) {
        report_json(given, settings, &verdict, asked->several);
    } else {
        report_words(given, settings, &verdict, &asked->report);
    }
    return verdict.told == CORBELNIB_WON ? STATUS_DONE : STATUS_NO;
}

static int judge(const struct asked *asked, const struct settings *settings, const char *word) {
    struct given given;
    struct refusal refusal = {0};
    int status = given_read(word, &given, &refusal);
    if (status != STATUS_DONE) {
        tell_refusal(who, given.name, &refusal);
        return status;
    }
    return answer(asked, &given, settings);
}

/* One after the other. The largest status of all is handed back: whoever wants each reads what is told of each. */
static int judge_all(const struct asked *asked, const struct settings *settings, const struct wordlist *words) {
    int status = STATUS_DONE;
    for (size_t i = 0; i < words->count; i++) {
        if (i > 0 && !asked->json) {
            putchar('\n');
        }
        int came = judge(asked, settings, words->word[i]);
        status = came > status ? came : status;
        if (i + 1 < words->count) {
            fflush(stdout); /* what was found stays found, if Ctrl-C ends the next one; main sees what failed */
        }
    }
    return status;
}

static int wrong_words(const struct asked *asked, const struct wordlist *words) {
    size_t inputs = 0;
    for (size_t i = 0; i < words->count; i++) {
        inputs += strcmp(words->word[i], "-") == 0;
    }
    if (words->count == 0) {
        return wrong_use(who, "a board is expected: a hand's number, a file, or - for standard input");
    }
    if (inputs > 1) {
        return wrong_use(who, "standard input cannot be two boards");
    }
    if (asked->report.line && (asked->json || asked->report.moves || asked->report.picture)) {
        return wrong_use(who, "--line prints the line alone; --json, --moves and --picture do not go with it");
    }
    if (asked->json && (asked->report.moves || asked->report.picture)) {
        return wrong_use(who, "--json tells all there is; --moves and --picture do not go with it");
    }
    return STATUS_DONE;
}

int run_judge(int argc, char **argv) {
    struct asked asked = {0};
    bool ascii = false, colour = false;
    const struct option options[] = {{"--budget", NULL, &asked.budget},
                                     {"--memory", NULL, &asked.memory},
                                     {"--partial", &asked.partial, NULL},
                                     {"--line", &asked.report.line, NULL},
                                     {"--moves", &asked.report.moves, NULL},
                                     {"--picture", &asked.report.picture, NULL},
                                     {"--json", &asked.json, NULL},
                                     {"--ascii", &ascii, NULL},
                                     {"--colour", &colour, NULL},
                                     {0}};
    struct wordlist words;
    struct settings settings;
    int status = options_part(who, argc, argv, options, SIZE_MAX, &words);
    if (status == STATUS_DONE) {
        status = wrong_words(&asked, &words);
    }
    if (status == STATUS_DONE) {
        status = settle(&asked, &settings);
    }
    if (status != STATUS_DONE) {
        return status;
    }
    asked.several = words.count > 1;
    asked.report.pen = pen_of(ascii, colour);
    return judge_all(&asked, &settings, &words);
}
