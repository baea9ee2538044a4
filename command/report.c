#include "report.h"

#include <stdio.h>
#include <string.h>

#include "emit.h"
#include "fold.h"
#include "moves.h"
#include "version.h"

#define MOVES_A_ROW 10

void say_folded(struct said *said, const uint8_t *text, size_t length) {
    size_t moves = 0;
    for (size_t i = 0; i < length; i++) {
        bool ends = text[i] == ' ' && ++moves % MOVES_A_ROW == 0;
        say(said, "%c", ends ? '\n' : text[i]);
    }
    say(said, length ? "\n" : "");
}

bool brings_list(uint8_t answer) {
    return answer == CORBELNIB_WON || answer == CORBELNIB_BEST_AT_LIMIT || answer == CORBELNIB_BEST_EXHAUSTED ||
           answer == CORBELNIB_BEST_IS_WON;
}

static void say_memory(struct said *said, size_t bytes) {
    static const char *const units[] = {" bytes", "K", "M", "G"};
    size_t unit = 0;
    while (unit < 3 && bytes && bytes % 1024 == 0) {
        bytes /= 1024;
        unit++;
    }
    say_number(said, bytes);
    say(said, "%s", units[unit]);
}

/* "won in 98 moves", or what else the answer means and how long its line is. */
static void say_answer(struct said *said, const struct verdict *verdict) {
    if (verdict->told == CORBELNIB_WON && verdict->moves == 0) {
        say(said, "won already");
    } else if (verdict->told == CORBELNIB_WON) {
        say(said, "won in ");
        say_count(said, verdict->moves, "move", "moves");
    } else {
        say(said, "%s", answer_words(verdict->told));
        if (brings_list(verdict->told)) {
            say(said, " in ");
            say_count(said, verdict->moves, "move", "moves");
        }
    }
}

static void say_search(struct said *said, const struct settings *settings, const struct verdict *verdict) {
    say(said, "; ");
    say_count(said, verdict->pops, "board was", "boards were");
    say(said, " taken from the frontier (budget ");
    say_number(said, settings->budget);
    say(said, "; memory ");
    say_memory(said, settings->memory);
    say(said, ", room for ");
    say_count(said, settings->capacity, "board", "boards");
    say(said, ").");
}

/* A line of words for each move, and the board after it if that is asked for. */
static void print_moves(const uint8_t *start, const struct verdict *verdict, const struct report *report) {
    uint8_t board[CORBELNIB_BOARD];
    memcpy(board, start, sizeof board);
    for (size_t i = 0; i < verdict->moves; i++) {
        const uint8_t *record = verdict->list + CORBELNIB_MOVE * i;
        struct said words = {0};
        char paper[PAPER_MOST];
        paper_move(board, record, paper);
        say_move(&words, board, record);
        play_move(board, record);
        printf("%s%3zu  %-4s  %s\n", report->picture && i ? "\n" : "", i + 1, *paper ? paper : "--", words.text);
        if (report->picture) {
            putchar('\n');
            show_picture(board, &report->pen);
        }
    }
}

/* Where a card comes back from home there is no line on paper, but records are read as well. */
static void print_records(const struct verdict *verdict) {
    for (size_t i = 0; i < verdict->moves; i++) {
        const uint8_t *record = verdict->list + CORBELNIB_MOVE * i;
        printf("%u,%u,%u,%u,%u\n", record[0], record[1], record[2], record[3], record[4]);
    }
}

static void print_line(const uint8_t *board, const struct verdict *verdict, const struct report *report) {
    uint8_t text[CORBELNIB_TEXT];
    size_t length;
    uint8_t number = corbelnib_write_line(board, CORBELNIB_BOARD, verdict->list, CORBELNIB_MOVE * verdict->moves, text, sizeof text, &length);
    if (number == CORBELNIB_DONE) {
        struct said line = {0};
        say_folded(&line, text, length);
        printf("%s", line.text);
    } else if (report->line) {
        print_records(verdict);
    } else {
        printf("Move %zu cannot be written on paper: %s (%u) The moves in words:\n\n", length + 1, refusal_words(number), number);
    }
    if (!report->line && (number != CORBELNIB_DONE || report->moves || report->picture)) {
        if (number == CORBELNIB_DONE) {
            putchar('\n');
        }
        print_moves(board, verdict, report);
    }
}

void report_words(const struct given *given, const struct settings *settings, const struct verdict *verdict,
                  const struct report *report) {
    struct said said = {0};
    say_given(&said, given);
    say(&said, ": ");
    say_answer(&said, verdict);
    say_search(&said, settings, verdict);
    say(&said, "\n");
    print_folded(report->line ? stderr : stdout, said.text);
    if (verdict->moves > 0 && !report->line) {
        putchar('\n');
    }
    if (verdict->moves > 0) {
        print_line(given->board, verdict, report);
    }
}

void json_line(struct object *object, const uint8_t *board, const uint8_t *list, size_t moves) {
    uint8_t text[CORBELNIB_TEXT];
    size_t length;
    uint8_t number = corbelnib_write_line(board, CORBELNIB_BOARD, list, CORBELNIB_MOVE * moves, text, sizeof text, &length);
    object_member(object, "line");
    if (number == CORBELNIB_DONE) {
        printf("\"%.*s\"", (int)length, (const char *)text);
    } else {
        printf("null");
    }
}

void json_moves(struct object *object, uint8_t *board, const uint8_t *list, size_t moves) {
    object_rows(object, "list");
    for (size_t i = 0; i < moves; i++) {
        const uint8_t *record = list + CORBELNIB_MOVE * i;
        struct said words = {0};
        char paper[PAPER_MOST];
        bool written = paper_move(board, record, paper);
        say_move(&words, board, record);
        play_move(board, record);
        object_row(object);
        printf("{\"record\": [%u, %u, %u, %u, %u], \"words\": \"%s\", \"paper\": ", record[0], record[1], record[2], record[3], record[4],
               words.text);
        printf(written ? "\"%s\"}" : "null}", paper);
    }
    object_rows_end(object);
}

void json_final(struct object *object, const uint8_t *board) {
    int64_t heuristic, progress;
    uint8_t token[CORBELNIB_TOKEN];
    size_t length = 0;
    corbelnib_scores(board, CORBELNIB_BOARD, &heuristic, &progress);
    corbelnib_token(board, CORBELNIB_BOARD, token, sizeof token, &length);
    object_member(object, "final");
    printf("{\"won\": %s, \"progress\": %lld, \"token\": \"%.*s\"}", is_won(board) ? "true" : "false", (long long)progress,
           (int)length, (const char *)token);
}

void json_given(struct object *object, const struct given *given) {
    uint64_t signature = 0;
    corbelnib_signature(given->board, sizeof given->board, &signature);
    object_text(object, "version", version_told());
    object_text(object, "input", form_name(given->form));
    if (given->form == FORM_HAND) {
        object_number(object, "hand", given->hand);
    } else {
        object_text(object, "hand", NULL);
    }
    object_hex(object, "board", given->board, sizeof given->board);
    object_member(object, "signature");
    printf("\"%016llx\"", (unsigned long long)signature);
}

void report_json(const struct given *given, const struct settings *settings, const struct verdict *verdict, bool one_line) {
    uint8_t board[CORBELNIB_BOARD];
    struct object object;
    memcpy(board, given->board, sizeof board);
    object_open(&object, one_line);
    json_given(&object, given);
    object_number(&object, "budget", settings->budget);
    object_number(&object, "memory", settings->memory);
    object_number(&object, "capacity", settings->capacity);
    object_flag(&object, "partial", settings->partial);
    object_number(&object, "answer", verdict->told);
    object_text(&object, "meaning", answer_words(verdict->told));
    object_number(&object, "pops", verdict->pops);
    object_number(&object, "moves", verdict->moves);
    if (brings_list(verdict->told)) {
        json_line(&object, board, verdict->list, verdict->moves);
    } else {
        object_text(&object, "line", NULL);
    }
    json_moves(&object, board, verdict->list, verdict->moves);
    if (brings_list(verdict->told)) {
        json_final(&object, board);
    } else {
        object_text(&object, "final", NULL);
    }
    object_close(&object);
}
