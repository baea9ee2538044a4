#define _XOPEN_SOURCE 700

#include "watch.h"

#include <signal.h>
#include <stdio.h>
#include <string.h>
#include <unistd.h>

#include "card.h"
#include "report.h"

/* ---- a line on a terminal */

#define WIDTH 79

void watch_line(const char *text) {
    static bool written = false;
    if (!isatty(STDERR_FILENO) || (!written && !*text)) {
        return;
    }
    written = *text;
    fprintf(stderr, "\r%-*.*s%s", WIDTH, WIDTH, text, *text ? "" : "\r");
    fflush(stderr);
}

/* ---- Ctrl-C */

/* Words are put where none are in use, so that Ctrl-C finds whole ones at any time. */
static struct said kept[2];
static volatile sig_atomic_t in_use;
static struct sigaction before;
static bool caught;

/* Nothing is called here but what a signal may call. */
static void stopped(int number) {
    (void)number;
    const struct said *words = &kept[in_use];
    size_t written = 0;
    while (written < words->length) {
        ssize_t more = write(STDERR_FILENO, words->text + written, words->length - written);
        if (more <= 0) {
            break;
        }
        written += (size_t)more;
    }
    _exit(STATUS_STOPPED);
}

/* From now on Ctrl-C leaves these words; where it is ignored it stays so. */
static void leave(const struct said *words) {
    kept[!in_use] = *words;
    in_use = !in_use;
    if (caught) {
        return;
    }
    struct sigaction action;
    memset(&action, 0, sizeof action);
    action.sa_handler = stopped;
    sigemptyset(&action.sa_mask);
    caught = sigaction(SIGINT, NULL, &before) == 0 && before.sa_handler != SIG_IGN && sigaction(SIGINT, &action, NULL) == 0;
}

static void leave_nothing(void) {
    if (caught) {
        sigaction(SIGINT, &before, NULL);
        caught = false;
    }
}

/* ---- what is known so far */

void say_boards(struct said *said, const struct risen *risen, size_t budget) {
    say_number(said, risen->boards);
    say(said, " of ");
    say_count(said, budget, "board", "boards");
}

static size_t cards_home(const uint8_t *board) {
    size_t count = 0;
    for (size_t suit = 0; suit < SUITS; suit++) {
        count += home_of(board, suit);
    }
    return count;
}

static void say_best(struct said *said, const uint8_t *board, const struct risen *risen) {
    uint8_t best[CORBELNIB_BOARD];
    size_t played = 0;
    if (risen->moves == 0) {
        return;
    }
    corbelnib_replay(board, CORBELNIB_BOARD, risen->list, CORBELNIB_MOVE * risen->moves, best, sizeof best, &played);
    say(said, "; best so far ");
    say_count(said, cards_home(best), "card", "cards");
    say(said, " home in ");
    say_count(said, risen->moves, "move", "moves");
}

/* That line, where it can be written. */
static void say_best_line(struct said *said, const uint8_t *board, const struct risen *risen) {
    uint8_t text[CORBELNIB_TEXT];
    size_t length;
    uint8_t told =
        corbelnib_write_line(board, CORBELNIB_BOARD, risen->list, CORBELNIB_MOVE * risen->moves, text, sizeof text, &length);
    if (risen->moves > 0 && told == CORBELNIB_DONE) {
        say(said, "\n");
        say_folded(said, text, length);
    }
}

/* ---- judged while somebody waits */

struct waiting {
    struct witness witness; /* the first member, so that it stands for the whole */
    const char *who;
    const struct given *given;
    const struct settings *settings;
    struct said known;
};

static void say_known(struct said *said, const struct waiting *w, const struct risen *risen) {
    say_given(said, w->given);
    if (risen->boards == 0) {
        say(said, ": nothing is known yet");
        return;
    }
    say(said, ": open after ");
    say_boards(said, risen, w->settings->budget);
    say_best(said, w->given->board, risen);
}

static void tell_step(struct witness *witness, const struct risen *risen) {
    struct waiting *w = (struct waiting *)witness;
    struct said line = {0}, stop = {0};
    w->known.length = 0;
    say_known(&w->known, w, risen);
    /* a terminal shows Ctrl-C behind the line */
    say(&stop, "%scorbelnib %s: stopped. %s.\n", isatty(STDERR_FILENO) ? "\n" : "", w->who, w->known.text);
    if (w->settings->partial) {
        say_best_line(&stop, w->given->board, risen);
    }
    leave(&stop);
    if (risen->boards > 0) {
        say_boards(&line, risen, w->settings->budget);
        say(&line, " looked at");
        say_best(&line, w->given->board, risen);
        watch_line(line.text);
    }
}

bool judge_watched(const char *who, const struct given *given, const struct settings *settings, struct verdict *verdict) {
    struct waiting waiting = {.witness = {tell_step}, .who = who, .given = given, .settings = settings};
    size_t lacking = 0;
    bool judged = judge_rising(given->board, settings, &waiting.witness, verdict, &lacking);
    leave_nothing();
    watch_line("");
    if (!judged) {
        complain(STATUS_NO_MEMORY, who, "this machine does not hand out %s bytes of memory. %s.", grouped(lacking).text, waiting.known.text);
    }
    return judged;
}
