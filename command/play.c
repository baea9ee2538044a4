/* corbelnib play: a line of moves, played by the rules. */
#include <stdio.h>
#include <string.h>

#include "commands.h"
#include "fcsolve.h"
#include "fold.h"
#include "given.h"
#include "hint.h"
#include "input.h"
#include "line.h"
#include "moves.h"
#include "options.h"
#include "played.h"
#include "show.h"

const char help_play[] =
    "usage: corbelnib play BOARD [LINE | --records FILE] [--fc-solve] [--figures] [--moves] [--board]\n"
    "                      [--picture [--ascii] [--colour]] [--json]\n"
    "\n"
    "Plays a line of moves and tells whether each is legal; if not, which one is the first that is not, and why. Then the\n"
    "board where it stopped. BOARD is as for `corbelnib judge`. LINE is one word in quotation marks; without it the line is\n"
    "read from standard input. Columns are 1 to 8, cells a to d, h is home: '6a 5h 6h'. White space of any length stands\n"
    "between moves; capitals are read too. A line with a comma in it is a list of records, five numbers each:\n"
    "'2,0,3,1,211' (docs/SCOPE.md). What `corbelnib judge` prints is read as it comes.\n"
    "\n"
    "  --records FILE  the records as bytes, five a move, from a file (- is standard input)\n"
    "  --fc-solve      the line is a solution as fc-solve prints it, by -m -snx, by -p -t -sam, by -m or as it is: what stands\n"
    "                  around the moves is passed over, and a move into an empty column that tells no count is of one card\n"
    "  --figures       the progress token of the board, and after each move\n"
    "  --moves         the moves in words, one a line\n"
    "  --board         prints the board alone; what else is told goes to standard error\n"
    "  --picture       draws the board\n"
    "  --ascii         letters for suits in the picture, and no colour\n"
    "  --colour        colour even if the output is no terminal\n"
    "  --json          everything, for programs: an object whose `stopped` has place, number and meaning of a refused move; a\n"
    "                  failure too\n"
    "\n"
    "examples: corbelnib play 8 '6a 5h 6h'\n"
    "          corbelnib judge 8 | corbelnib play 8 --figures\n"
    "          corbelnib deal 617 | corbelnib play - 6a | corbelnib play - 6b\n"
    "          corbelnib deal 617 | fc-solve -m -snx | corbelnib play 617 --fc-solve\n"
    "          corbelnib play board.txt --records moves.bin\n"
    "\n"
    "status: 0 all legal, 1 a move is not, 2 the board or the line is refused, 64 wrong use, 66 no such file, 74 the output failed\n";

static const char who[] = "play";

struct asked {
    const char *records;
    bool figures, moves, picture, ascii, colour, theirs, board, json;
};

static void print_token(const uint8_t *board) {
    uint8_t token[CORBELNIB_TOKEN];
    size_t length = 0;
    corbelnib_token(board, CORBELNIB_BOARD, token, sizeof token, &length);
    printf("  %.*s", (int)length, (const char *)token);
}

/* A line for each move, with its token, its words or both. */
static void print_moves(const struct asked *asked, const uint8_t *start, const struct played *played) {
    uint8_t board[CORBELNIB_BOARD];
    memcpy(board, start, sizeof board);
    if (asked->figures) {
        printf("%3d  %-4s", 0, "");
        print_token(board);
        putchar('\n');
    }
    for (size_t i = 0; i < played->moves; i++) {
        const uint8_t *record = played->list + CORBELNIB_MOVE * i;
        struct said words = {0};
        char paper[PAPER_MOST];
        paper_move(board, record, paper);
        say_move(&words, board, record);
        play_move(board, record);
        printf("%3zu  %-4s", i + 1, *paper ? paper : "--");
        if (asked->figures) {
            print_token(board);
        }
        printf("%s%s\n", asked->moves ? "  " : "", asked->moves ? words.text : "");
    }
    putchar('\n');
}

static size_t cards_home(const uint8_t *board) {
    size_t home = 0;
    for (size_t suit = 0; suit < SUITS; suit++) {
        home += home_of(board, suit);
    }
    return home;
}

static void say_legal(struct said *said, const struct played *played) {
    if (played->moves == 0) {
        say(said, "no moves; ");
    } else {
        say_count(said, played->moves, "move, legal; ", "moves, all legal; ");
    }
    if (is_won(played->last)) {
        say(said, "the hand is won.");
    } else {
        say_count(said, cards_home(played->last), "card is", "cards are");
        say(said, " home.");
    }
}

static void print_verdict(const struct asked *asked, const struct given *given, const struct played *played) {
    struct said said = {0};
    say_given(&said, given);
    say(&said, ": ");
    if (played->told != CORBELNIB_DONE) {
        say(&said, "move %zu, %s: %s (%u)", played->moves + 1, played->bad.text, refusal_words(played->told), played->told);
        hint_move(played, asked->theirs, &said);
    } else {
        say_legal(&said, played);
    }
    say(&said, "\n");
    print_folded(asked->board ? stderr : stdout, said.text);
}

static int tell(const struct asked *asked, const struct given *given, const struct played *played) {
    if (asked->json) {
        played_json(given, played);
        return played->told == CORBELNIB_DONE ? STATUS_DONE : STATUS_NO;
    }
    if (asked->figures || asked->moves) {
        print_moves(asked, given->board, played);
    }
    print_verdict(asked, given, played);
    if (!asked->board) {
        putchar('\n');
    }
    if (asked->picture) {
        struct pen pen = pen_of(asked->ascii, asked->colour);
        show_picture(played->last, &pen);
    } else {
        show_board(played->last);
    }
    return played->told == CORBELNIB_DONE ? STATUS_DONE : STATUS_NO;
}

/* The line from a word, or from a file in either form. */
static int play(const struct asked *asked, const struct given *given, const char *line) {
    struct played played = {0};
    struct refusal refusal = {.number = NO_REFUSAL};
    const char *name = line ? "the line" : input_name(asked->records ? asked->records : "-");
    struct input input = {0};
    size_t most = asked->theirs ? SOLUTION_MOST : INPUT_MOST;
    if (!line && !asked->records) {
        input_prompt("-", "a line");
    }
    int status = line ? STATUS_DONE : input_read(asked->records ? asked->records : "-", most, &input, &refusal.words);
    if (status == STATUS_DONE) {
        const uint8_t *bytes = line ? (const uint8_t *)line : input.bytes;
        size_t length = line ? strlen(line) : input.length;
        bool done = asked->records  ? records_play(given->board, bytes, length, &played, &refusal)
                    : asked->theirs ? fcsolve_play(given->board, bytes, length, &played, &refusal)
                                    : line_play(given->board, bytes, length, &played, &refusal);
        status = done ? STATUS_DONE : STATUS_REFUSED;
    }
    input_free(&input);
    if (status != STATUS_DONE) {
        tell_refusal(who, name, &refusal);
        return status;
    }
    return tell(asked, given, &played);
}

static int start(const struct asked *asked, const struct wordlist *words) {
    const char *line = words->count > 1 ? words->word[1] : NULL;
    if (words->count == 0) {
        return wrong_use(who, "a board is expected: a hand's number, a file, or - for standard input");
    }
    if (asked->json && (asked->figures || asked->moves || asked->picture || asked->board)) {
        return wrong_use(who, "--json tells all there is; --figures, --moves, --board and --picture do not go with it");
    }
    if (line && asked->records) {
        return wrong_use(who, "a line and --records do not go together");
    }
    if (asked->theirs && asked->records) {
        return wrong_use(who, "--fc-solve and --records do not go together");
    }
    if (asked->board && (asked->figures || asked->moves)) {
        return wrong_use(who, "--board prints the board alone; --figures and --moves do not go with it");
    }
    bool input_twice = strcmp(words->word[0], "-") == 0 && !line && (!asked->records || strcmp(asked->records, "-") == 0);
    if (input_twice) {
        return wrong_use(who, "standard input cannot be both the board and the line");
    }
    struct given given;
    struct refusal refusal = {0};
    int status = given_read(words->word[0], &given, &refusal);
    if (status != STATUS_DONE) {
        tell_refusal(who, given.name, &refusal);
        return status;
    }
    return play(asked, &given, line);
}

int run_play(int argc, char **argv) {
    struct asked asked = {0};
    const struct option options[] = {{"--records", NULL, &asked.records},
                                     {"--figures", &asked.figures, NULL},
                                     {"--moves", &asked.moves, NULL},
                                     {"--fc-solve", &asked.theirs, NULL},
                                     {"--board", &asked.board, NULL},
                                     {"--picture", &asked.picture, NULL},
                                     {"--ascii", &asked.ascii, NULL},
                                     {"--colour", &asked.colour, NULL},
                                     {"--json", &asked.json, NULL},
                                     {0}};
    struct wordlist words;
    int status = options_part(who, argc, argv, options, 2, &words);
    return status == STATUS_DONE ? start(&asked, &words) : status;
}
