/* corbelnib agree: what may be published of one answer, or of two controllers' answers to one board. */
#include <stdio.h>
#include <string.h>

#include "answer.h"
#include "card.h"
#include "commands.h"
#include "demand.h"
#include "emit.h"
#include "evidence.h"
#include "fold.h"
#include "input.h"
#include "options.h"
#include "told.h"
#include "version.h"
#include "watch.h"

const char help_agree[] =
    "usage: corbelnib agree FIRST.json [SECOND.json] [--quick] [--json]\n"
    "\n"
    "Holds answers of `corbelnib judge --json` to the evidence, and says what may be published and never has to be taken\n"
    "back: won and exhausted for good, else `open after N boards`. Of two answers to one board won goes before all,\n"
    "exhausted before open, more boards before fewer, and a best line before none. The limit and a full memory are one\n"
    "word, so that two desks post one thing.\n"
    "\n"
    "Each answer is checked by itself: its list is played, its numbers are held against each other, its board against its\n"
    "hand. Then it is judged again with the settings that it tells, which takes about as long as that search did. If\n"
    "another answer comes, that side is named as broken, with status 3: a memory, a disk or a line is broken, for the\n"
    "library is proved to give one answer (docs/SCOPE.md, demand 3). A list that wins stands, whatever else is said.\n"
    "Answers of two versions are not compared.\n"
    "\n"
    "  --quick  does not judge again: two answers are held to each other alone, and the verdict says `not checked`\n"
    "  --json   the same, for programs\n"
    "\n"
    "examples: corbelnib agree left.json right.json\n"
    "          corbelnib agree left.json\n"
    "\n"
    "status: 0 nothing is broken, 2 no answer, or answers to two boards or of two versions, 3 something is broken,\n"
    "        64 wrong use, 66 no such file, 71 no memory, 74 the output failed\n";

static const char who[] = "agree";

#define FILES_MOST 2
enum { EITHER = FILES_MOST, NOTHING };

/* What was read, and what came of it. */
struct outcome {
    bool json, quick;
    size_t count;
    struct answer answers[FILES_MOST];
    struct evidence found[FILES_MOST];
    struct said clash; /* why two of which nothing is broken cannot both be right */
    int publish;       /* a file's place, EITHER or NOTHING */
    struct said why;   /* it is that one */
};

static bool broken(const struct outcome *o, size_t i) {
    return o->found[i].broken.length > 0;
}

/* ---- reading */

static int read_answer(struct outcome *o, size_t which, const struct json *json) {
    struct answer *a = &o->answers[which];
    struct said why = {0};
    if (!answer_read(json, a, &why)) {
        return complain(STATUS_REFUSED, who, "%s: %s", a->name, why.text);
    }
    if (strcmp(a->version, version_told()) != 0) {
        say_quoted(&why, (const unsigned char *)a->version, strlen(a->version));
        return complain(STATUS_REFUSED, who, "%s is by version %s, and this is %s: answers of two versions are not compared", a->name, why.text,
                        version_told());
    }
    if (!answer_check(json, a, &why)) {
        say(&o->found[which].broken, "it is no answer that can have been given: %s", why.text);
    }
    return STATUS_DONE;
}

static int read_file(struct outcome *o, size_t which, const char *name) {
    struct input input;
    struct json_tree tree;
    struct said why = {0};
    o->answers[which].name = input_name(name);
    input_prompt(name, "an answer");
    int status = input_read(name, ANSWER_MOST, &input, &why);
    if (status != STATUS_DONE) {
        return complain(status, who, "%s: %s", input_name(name), why.text);
    }
    if (json_read(input.bytes, input.length, &tree, &why)) {
        status = read_answer(o, which, tree.values);
    } else {
        status = complain(STATUS_REFUSED, who, "%s: %s", input_name(name), why.text);
    }
    json_free(&tree);
    input_free(&input);
    return status;
}

static void say_board(struct said *said, const struct answer *a) {
    uint64_t signature = 0;
    corbelnib_signature(a->board, sizeof a->board, &signature);
    if (a->hand) {
        say(said, "hand %zu", a->hand);
    } else {
        say(said, "a board");
    }
    say(said, ", signature %016llx", (unsigned long long)signature);
}

/* Whether both answers are to one board; if not, that is said. A board that is none is no other one. */
static bool one_board(const struct outcome *o) {
    const struct answer *x = &o->answers[0], *y = &o->answers[1];
    if (o->count < FILES_MOST || !x->placed || !y->placed || memcmp(x->board, y->board, sizeof x->board) == 0) {
        return true;
    }
    uint64_t first = 0, second = 0;
    struct said words = {0};
    corbelnib_signature(x->board, sizeof x->board, &first);
    corbelnib_signature(y->board, sizeof y->board, &second);
    say(&words, "%s is of ", x->name);
    say_board(&words, x);
    say(&words, "; %s is of ", y->name);
    say_board(&words, y);
    complain(STATUS_REFUSED, who, "%s: answers to different boards%s say nothing of each other", words.text,
             first == second ? " (the same but for the order of cells or columns)" : "");
    return false;
}

/* ---- judging again */

struct reader {
    struct witness witness; /* the first member, so that it stands for the whole */
    const struct answer *answer;
};

static void tell_step(struct witness *witness, const struct risen *risen) {
    const struct answer *a = ((struct reader *)witness)->answer;
    struct said line = {0};
    say_boards(&line, risen, a->budget);
    say(&line, " judged again of %s", a->name);
    watch_line(line.text);
}

static bool judge_again(struct outcome *o) {
    size_t lacking = 0;
    for (size_t i = 0; i < o->count; i++) {
        struct reader reader = {.witness = {tell_step}, .answer = &o->answers[i]};
        bool found = broken(o, i) || evidence_find(&o->answers[i], i ? &o->answers[0] : NULL, &o->found[0], &reader.witness, &o->found[i], &lacking);
        watch_line("");
        if (!found) {
            complain(STATUS_NO_MEMORY, who, "%s cannot be judged again: this machine does not hand out %s bytes of memory; --quick leaves it out",
                     o->answers[i].name, grouped(lacking).text);
            return false;
        }
    }
    return true;
}

/* ---- what may be published */

/* Nothing speaks against it, or its list wins, which stands whatever else is said. */
static bool stands(const struct outcome *o, size_t i) {
    return o->answers[i].wins || !(broken(o, i) || o->clash.length);
}

static void say_alone(struct said *why, const struct answer *a) {
    if (answer_open(a)) {
        say(why, a->told == CORBELNIB_BEST_IS_WON ? "its best line ends won, and a larger search may say more" : "a larger search may say more");
    } else {
        say(why, "that stays so whatever else is asked");
    }
}

/* One that stands, the better of two, and of two that win one that is not broken. */
static int choose(struct outcome *o) {
    const struct answer *a = o->answers;
    bool first = stands(o, 0), second = o->count == FILES_MOST && stands(o, 1);
    if (first && second && a[0].wins && a[1].wins && broken(o, 0) != broken(o, 1)) {
        first = !broken(o, 0);
        second = !first;
    }
    if (!first && !second) {
        return NOTHING;
    }
    int choice = first && second ? demand_chooses(&a[0], &a[1], &o->why) : first ? 0 : 1;
    if (o->clash.length || broken(o, choice == 1)) {
        o->why.length = 0;
        say(&o->why, choice == EITHER ? "both lists were played and win, which stands whatever else is said"
                                      : "its list was played and wins, which stands whatever else is said");
    } else if (!(first && second)) {
        say_alone(&o->why, &a[choice]);
    }
    return choice;
}

static void rule(struct outcome *o) {
    if (o->count == FILES_MOST && !broken(o, 0) && !broken(o, 1)) {
        demand_allows(&o->answers[0], &o->answers[1], &o->clash);
    }
    o->publish = choose(o);
}

static bool all_well(const struct outcome *o) {
    return !broken(o, 0) && !broken(o, 1) && o->clash.length == 0;
}

/* The one that is published, the first for either. */
static const struct answer *published(const struct outcome *o) {
    return &o->answers[o->publish == 1 ? 1 : 0];
}

/* ---- telling it to programs */

static void say_because(struct said *said, const struct outcome *o) {
    say(said, o->quick ? "not checked" : "judged again");
    for (size_t i = 0; i < o->count; i++) {
        if (broken(o, i)) {
            say(said, "; %s: %s", o->answers[i].name, o->found[i].broken.text);
        }
    }
    if (o->clash.length) {
        say(said, "; %s", o->clash.text);
    }
    if (o->publish != NOTHING) {
        say(said, "; %s", o->why.text);
    }
}

static void json_broken(const struct outcome *o) {
    const char *between = "";
    printf("\"broken\": [");
    for (size_t i = 0; i < o->count; i++) {
        if (broken(o, i)) {
            printf("%s{\"file\": %zu, \"because\": ", between, i + 1);
            json_text(o->found[i].broken.text);
            printf("}");
            between = ", ";
        }
    }
    printf("], ");
}

static void json_publish(const struct outcome *o) {
    static const char *const which[] = {"1", "2", "\"either\"", "null"};
    printf("\"publish\": %s, \"posting\": ", which[o->publish]);
    if (o->publish == NOTHING) {
        printf("null, \"for_good\": null, ");
        return;
    }
    struct said posting = {0};
    say_posting(&posting, published(o));
    json_text(posting.text);
    bool known = published(o)->wins || (!o->quick && answer_exhausted(published(o)));
    printf(", \"for_good\": %s, ", known ? "true" : "false");
}

static void print_json(const struct outcome *o) {
    struct said because = {0};
    say_because(&because, o);
    printf("{\"version\": \"%s\", \"checked\": %s, \"%s\": %s, ", version_told(), o->quick ? "false" : "true",
           o->count == FILES_MOST ? "both_can_be_right" : "can_be_right", all_well(o) ? "true" : "false");
    json_broken(o);
    json_publish(o);
    printf("\"because\": ");
    json_text(because.text);
    printf("}\n");
}

/* ---- telling it to readers */

static void say_end(struct said *said, const struct answer *a) {
    if (a->moves == 0 && !answer_won(a)) {
        say(said, "no list");
        return;
    }
    say_count(said, a->moves, "move", "moves");
    if (!a->played) {
        say(said, a->placed ? ", cannot be played" : ", not played");
    } else if (is_won(a->last)) {
        say(said, ", ends won");
    } else {
        say(said, ", ends at score %lld", (long long)a->progress);
    }
}

/* The rows of the table, a cell for each answer. */
enum row { ROW_NAME, ROW_ANSWER, ROW_BOARDS, ROW_LIST, ROW_BUDGET, ROW_ROOM, ROW_AGAIN, ROWS };

static void say_rows(const struct outcome *o, size_t i, struct said *cells) {
    const struct answer *a = &o->answers[i];
    const struct evidence *e = &o->found[i];
    say(&cells[ROW_NAME], "%s", a->name);
    say(&cells[ROW_ANSWER], "%u, %s", a->told, answer_won(a) ? "won" : answer_exhausted(a) ? "exhausted" : "open");
    say_number(&cells[ROW_BOARDS], a->pops);
    say(&cells[ROW_BOARDS], " taken");
    say_end(&cells[ROW_LIST], a);
    say_number(&cells[ROW_BUDGET], a->budget);
    say(&cells[ROW_BUDGET], a->partial ? ", partial" : "");
    say_count(&cells[ROW_ROOM], a->capacity, "board", "boards");
    say(&cells[ROW_AGAIN], e->broken.length ? e->judged ? "another answer" : "no answer" : e->judged ? "the same" : "not checked");
}

static void print_title(const struct outcome *o) {
    const struct answer *x = &o->answers[0], *y = &o->answers[1];
    const struct answer *a = o->count == FILES_MOST && (!x->placed || (y->placed && y->hand)) ? y : x;
    struct said words = {0};
    say_board(&words, a);
    if (!a->placed) {
        printf("%s:\n\n", o->count == FILES_MOST ? "Two answers" : "One answer");
    } else {
        printf("%s %s.\n\n", o->count == FILES_MOST ? "Two answers to" : "An answer to", words.text);
    }
}

static void print_table(const struct outcome *o) {
    static const char *const labels[ROWS] = {"", "answer", "boards", "list", "budget", "room", "again"};
    struct said cells[FILES_MOST][ROWS] = {0};
    size_t width = 0;
    for (size_t i = 0; i < o->count; i++) {
        say_rows(o, i, cells[i]);
    }
    for (int i = 0; i < ROWS; i++) {
        width = cells[0][i].length > width ? cells[0][i].length : width;
    }
    for (int i = 0; i < ROWS; i++) {
        bool two = o->count == FILES_MOST;
        printf("%-6s  %-*s%s%s\n", labels[i], two ? (int)width : 0, cells[0][i].text, two ? "  " : "", two ? cells[1][i].text : "");
    }
}

static void say_broken(struct said *said, const struct outcome *o) {
    for (size_t i = 0; i < o->count; i++) {
        if (broken(o, i)) {
            say(said, "*** %s IS BROKEN: %s. ***\n", o->answers[i].name, o->found[i].broken.text);
        }
    }
    if (o->clash.length) {
        say(said, "*** THIS CANNOT BE: %s. ***\n", o->clash.text);
    }
    say(said, "A proved program cannot do that: a memory, a disk or a line between them is broken.\n");
    if (o->clash.length && o->quick) {
        say(said, "Not checked: without --quick each is judged again, and the broken one is named.\n");
    }
}

/* What is left beside what is broken, or all of it. Of an answer that is broken or contradicted its list alone is left. */
static void say_checked(struct said *said, const struct outcome *o) {
    bool all = all_well(o), both = all && o->count == FILES_MOST;
    const char *what = both ? "both" : all ? "it" : "the other";
    if (o->clash.length || broken(o, o->publish == 1)) {
        say(said, o->quick && !o->clash.length ? "Not checked. " : "");
    } else if (o->quick) {
        say(said, "Not checked: %s can be right. ", what);
    } else {
        say(said, "Judged again, %s %s so. ", what, both ? "are" : "is");
    }
}

static void say_publish(struct said *said, const struct outcome *o) {
    if (o->publish == NOTHING) {
        say(said, "Publish nothing before it is found.\n");
        return;
    }
    const struct answer *a = published(o), *other = &o->answers[o->publish != 1];
    struct said posting = {0};
    say_posting(&posting, a);
    say_checked(said, o);
    if (o->count == FILES_MOST) {
        say(said, "Publish %s: %s; %s.\n", o->publish == EITHER ? "either" : a->name, posting.text, o->why.text);
    } else {
        say(said, "%s never has to be taken back: %s; %s.\n", o->quick && !a->wins ? "If it is, this may go up and" : "This may go up now and",
               posting.text, o->why.text);
    }
    if (all_well(o) && o->publish < EITHER && !answer_won(a) && !answer_best(a) && answer_best(other)) {
        say(said, "A best line%s is in %s alone.\n", is_won(other->last) ? ", which ends won," : "", other->name);
    }
}

static void print_words(const struct outcome *o) {
    printf("%s", is_proved() ? "" : "NOT PROVED. ");
    print_title(o);
    print_table(o);
    printf("\n");
    struct said said = {0};
    if (!all_well(o)) {
        say_broken(&said, o);
    }
    say_publish(&said, o);
    print_folded(stdout, said.text);
}

static int compare(struct outcome *o) {
    if (!one_board(o)) {
        return STATUS_REFUSED;
    }
    if (!o->quick && !judge_again(o)) {
        return STATUS_NO_MEMORY;
    }
    rule(o);
    if (o->json) {
        print_json(o);
    } else {
        print_words(o);
    }
    return all_well(o) ? STATUS_DONE : STATUS_IMPOSSIBLE;
}

int run_agree(int argc, char **argv) {
    static struct outcome outcome;
    const struct option options[] = {{"--json", &outcome.json, NULL}, {"--quick", &outcome.quick, NULL}, {0}};
    struct wordlist words;
    int status = options_part(who, argc, argv, options, FILES_MOST, &words);
    if (status != STATUS_DONE) {
        return status;
    }
    if (words.count == 0) {
        return wrong_use(who, "one or two files with answers are expected");
    }
    if (words.count == FILES_MOST && strcmp(words.word[0], "-") == 0 && strcmp(words.word[1], "-") == 0) {
        return wrong_use(who, "standard input cannot be both answers");
    }
    outcome.count = words.count;
    for (size_t i = 0; i < outcome.count; i++) {
        status = read_file(&outcome, i, words.word[i]);
        if (status != STATUS_DONE) {
            return status;
        }
    }
    return compare(&outcome);
}
