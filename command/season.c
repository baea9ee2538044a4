/* corbelnib season: one sheet of figures over a run of deals, sheets added, a sheet shown. */
#define _XOPEN_SOURCE 700

#include <stdio.h>
#include <string.h>
#include <time.h>
#include <unistd.h>

#include "amount.h"
#include "blame_sheet.h"
#include "commands.h"
#include "figures.h"
#include "input.h"
#include "lend.h"
#include "listing.h"
#include "options.h"
#include "say.h"
#include "sheet.h"
#include "told.h"

const char help_season[] =
    "usage: corbelnib season run FIRST LAST [--budget N] [--memory SIZE | --nodes N] [--partial] [-o FILE] [--list FILE]\n"
    "                            [--quiet] [--json]\n"
    "       corbelnib season add [-o FILE] [--json] FILE..\n"
    "       corbelnib season show [--json | --csv] FILE..\n"
    "\n"
    "Sheets of figures over many deals (docs/SEASON.md): how many were won, by how many moves, and what it took.\n"
    "\n"
    "run judges the deals FIRST to LAST, of 1 to 32,000, one by one and writes their sheet, 5,728 bytes, to FILE, or to\n"
    "standard output if that is no terminal. It tells on standard error how far it has come. A FIRST above LAST is no\n"
    "deal, and gives the sheet of none. add writes the sheet over all deals of sheets with equal settings and no deal in\n"
    "common. show says in words what stands on each sheet. A FILE that is read may be -, standard input. A FILE that is\n"
    "written gets its name when it is whole.\n"
    "\n"
    "  --budget N     boards that are looked at in a deal, at most 1,000,000; 100,000 if it is not given (`judge`\n"
    "                 has 1,000,000: a season is many deals)\n"
    "  --memory SIZE  bytes, or with K, M or G, for the search. A board takes 38 bytes\n"
    "  --nodes N      the same by boards that it holds; 2,500,000 if neither is given, which is 95 million bytes\n"
    "  --partial      where no win is found, a line to the best board seen is asked for\n"
    "  --quiet        does not tell how far it has come\n"
    "  -o FILE        where the sheet goes\n"
    "  --list FILE    a line for each deal as it is judged: deal,answer,pops,moves (of the won list; else nothing)\n"
    "  --csv          shows a line for each sheet, under one that names the figures\n"
    "  --json         shows an object, and of several sheets one on a line each, in their order; a failure of run, add or\n"
    "                 show is an object on standard output\n"
    "\n"
    "examples: corbelnib season run 1 100 --budget 20000 -o a.sheet\n"
    "          corbelnib season run 101 200 --budget 20000 -o b.sheet\n"
    "          corbelnib season add -o both.sheet a.sheet b.sheet\n"
    "          corbelnib season show both.sheet\n"
    "          corbelnib season run 1 100 --budget 20000 -o a.sheet --list a.csv\n"
    "\n"
    "status: 0 done, 2 refused, 64 wrong use, 66 no such file, 71 no memory, 73 FILE cannot be made, 74 the output failed\n";

#define BUDGET_USUAL 100000
#define NODES_USUAL 2500000

static const char runs[] = "season run", adds[] = "season add", shows[] = "season show";

/* ---- how far a run has come */

/* Seconds from one line to the next: a terminal's is written over and over. */
#define PAUSE_TERMINAL 0.2
#define PAUSE 5

struct progress {
    size_t all;
    double start, told;
    bool quiet, terminal;
};

static double now(void) {
    struct timespec t;
    clock_gettime(CLOCK_MONOTONIC, &t);
    return (double)t.tv_sec + (double)t.tv_nsec / 1e9;
}

static void say_time(struct said *said, double seconds) {
    unsigned long s = (unsigned long)(seconds + 0.5);
    if (s >= 3600) {
        say(said, "%lu h %02lu min", s / 3600, s / 60 % 60);
    } else if (s >= 60) {
        say(said, "%lu min %02lu s", s / 60, s % 60);
    } else {
        say(said, "%lu s", s);
    }
}

static void tell(struct progress *p, size_t done) {
    double at = now(), spent = at - p->start;
    if (p->quiet || (done < p->all && at - p->told < (p->terminal ? PAUSE_TERMINAL : PAUSE))) {
        return;
    }
    p->told = at;
    double rate = spent > 0 ? (double)done / spent : 0;
    struct said line = {0};
    say(&line, "%s of %s deals, %.1f a second", grouped(done).text, grouped(p->all).text, rate);
    if (done == p->all) {
        say(&line, ", ");
        say_time(&line, spent);
    } else if (rate > 0) {
        say(&line, ", ");
        say_time(&line, (double)(p->all - done) / rate);
        say(&line, " left");
    }
    if (p->terminal) {
        fprintf(stderr, "\r%-79s%s", line.text, done == p->all ? "\n" : "");
    } else {
        fprintf(stderr, "%s\n", line.text);
    }
}

/* ---- run */

struct asked {
    const char *budget_word, *memory_word, *nodes_word, *output, *list;
    size_t first, last, budget, nodes;
    bool partial, quiet, json; /* of run itself nothing is JSON but a failure (main.c) */
    FILE *listing;
};

/* A refusal, with the word that it is about. */
static int refused(const struct asked *a, const struct wordlist *words, uint8_t number) {
    bool first_is_one = 1 <= a->first && a->first <= CORBELNIB_NUMBER;
    const char *about = number == CORBELNIB_OVER_BUDGET ? "--budget"
                        : number != CORBELNIB_NO_NUMBER ? (a->memory_word ? "--memory" : "--nodes")
                                                        : words->word[first_is_one];
    struct refusal refusal = {0};
    refuse(&refusal, number);
    tell_refusal(runs, about, &refusal);
    return STATUS_REFUSED;
}

static uint8_t judged(const struct asked *a, struct scratch *s, size_t first, size_t last, struct sheet *sheet) {
    return corbelnib_season(first, last, a->budget, a->partial, CORBELNIB_SCRATCH(s->parts), sheet->word, CORBELNIB_SHEET);
}

/* Deal by deal: the sheet of each is added to that of those before it. Hands back the library's number. */
static uint8_t collect(const struct asked *a, struct scratch *s, struct sheet *sheet) {
    size_t low = a->first < a->last ? a->first : a->last;
    size_t high = a->first < a->last ? a->last : a->first;
    /* turned round: the sheet of no deal with these settings, and every refusal; or of the only deal, and then this is all */
    uint8_t told = judged(a, s, high, low, sheet);
    if (told == CORBELNIB_DONE && a->first == a->last) {
        listing_put(a->listing, sheet, low);
    }
    if (told != CORBELNIB_DONE || a->first >= a->last) {
        return told;
    }
    struct progress p = {.all = high - low + 1, .start = now(), .quiet = a->quiet, .terminal = isatty(STDERR_FILENO)};
    p.told = p.terminal ? 0 : p.start;
    tell(&p, 0);
    for (size_t n = low; n <= high && told == CORBELNIB_DONE; n++) {
        struct sheet one;
        told = judged(a, s, n, n, &one);
        if (told == CORBELNIB_DONE) {
            listing_put(a->listing, &one, n);
            told = sheet_add(sheet, &one);
        }
        tell(&p, n - low + 1);
    }
    return told;
}

static int settle(struct asked *a, const struct wordlist *words) {
    if (words->count < 2 || !is_digits(words->word[0]) || !is_digits(words->word[1])) {
        return wrong_use(runs, "the first and the last deal are expected, numbers of 1 to 32,000");
    }
    if (a->memory_word && a->nodes_word) {
        return wrong_use(runs, "--memory and --nodes do not go together");
    }
    amount_number(words->word[0], &a->first);
    amount_number(words->word[1], &a->last);
    size_t bytes = 0;
    int status = option_number(runs, "--budget", a->budget_word, &a->budget);
    if (status == STATUS_DONE) {
        status = option_number(runs, "--nodes", a->nodes_word, &a->nodes);
    }
    if (status == STATUS_DONE) {
        status = option_memory(runs, "--memory", a->memory_word, &bytes);
    }
    a->nodes = a->memory_word ? capacity_of(bytes) : a->nodes;
    return status == STATUS_DONE ? sheet_writable(runs, a->output) : status;
}

/* Judges all deals and writes what was asked for. */
static int work(struct asked *a, const struct wordlist *words) {
    struct scratch scratch;
    struct sheet sheet;
    if (!lend(&scratch, a->nodes)) {
        return complain(STATUS_NO_MEMORY, runs, "this machine does not hand out memory for %s boards", grouped(a->nodes).text);
    }
    int status = listing_open(runs, a->list, &a->listing);
    if (status == STATUS_DONE) {
        uint8_t told = collect(a, &scratch, &sheet);
        status = listing_close(runs, a->list, a->listing);
        status = told != CORBELNIB_DONE ? refused(a, words, told) : status == STATUS_DONE ? sheet_write(runs, a->output, &sheet) : status;
    }
    take_back(&scratch);
    return status;
}

static int run(int argc, char **argv) {
    struct asked a = {.budget = BUDGET_USUAL, .nodes = NODES_USUAL};
    const struct option options[] = {{"--budget", NULL, &a.budget_word},
                                     {"--memory", NULL, &a.memory_word},
                                     {"--nodes", NULL, &a.nodes_word},
                                     {"--partial", &a.partial, NULL},
                                     {"--quiet", &a.quiet, NULL},
                                     {"--list", NULL, &a.list},
                                     {"--json", &a.json, NULL},
                                     {"-o", NULL, &a.output},
                                     {0}};
    struct wordlist words;
    int status = options_part(runs, argc, argv, options, 2, &words);
    if (status == STATUS_DONE) {
        status = settle(&a, &words);
    }
    return status == STATUS_DONE ? work(&a, &words) : status;
}

/* ---- add */

/* Begins the words of a refused sheet. */
static void refuse_sheet(struct refusal *refusal, uint8_t number, const struct sheet *sheet) {
    refuse(refusal, number);
    if (number == CORBELNIB_WRONG_SHEET) {
        blame_sheet(sheet, &refusal->words);
    }
}

/* The words of `add` and `show`: files, of which one may be standard input. */
static int part_files(const char *who, int argc, char **argv, const struct option *options, struct wordlist *files) {
    int status = options_part(who, argc, argv, options, SIZE_MAX, files);
    if (status != STATUS_DONE) {
        return status;
    }
    size_t inputs = 0;
    for (size_t i = 0; i < files->count; i++) {
        inputs += strcmp(files->word[i], "-") == 0;
    }
    if (inputs > 1) {
        return wrong_use(who, "standard input cannot be two sheets");
    }
    return files->count > 0 ? STATUS_DONE : wrong_use(who, "files with sheets are expected, or - for standard input");
}

/* Each setting that differs from the first file's. */
static void say_settings(struct said *said, const struct sheet *sheet, const char *first, const struct sheet *total) {
    static const char *const names[] = {[CORBELNIB_SHEET_BUDGET] = "budget", [CORBELNIB_SHEET_CAPACITY] = "nodes"};
    const char *between = ":";
    say(said, " Here and in %s", input_name(first));
    for (size_t i = 0; i < sizeof names / sizeof *names; i++) {
        if (sheet->word[i] != total->word[i]) {
            say(said, "%s %s %s and %s", between, names[i], grouped(sheet->word[i]).text, grouped(total->word[i]).text);
            between = ";";
        }
    }
    bool partial = sheet->word[CORBELNIB_SHEET_FLAG] != 0;
    if (partial != (total->word[CORBELNIB_SHEET_FLAG] != 0)) {
        say(said, "%s partial lists %s", between, partial ? "yes and no" : "no and yes");
    }
    say(said, ".");
}

/* The first common deal, and the earlier file that has it. */
static void say_common(struct said *said, const struct wordlist *files, size_t which, const struct sheet *sheet, const struct sheet *total) {
    size_t deal = 1;
    while (deal < CORBELNIB_NUMBER && !(sheet_covers(sheet, deal) && sheet_covers(total, deal))) {
        deal++;
    }
    const char *earlier = "an earlier file";
    for (size_t i = 0; i < which; i++) {
        struct sheet other;
        const char *name = files->word[i];
        if (strcmp(name, "-") != 0 && sheet_read(adds, name, &other) == STATUS_DONE && sheet_covers(&other, deal)) {
            earlier = name;
            break;
        }
    }
    say(said, " Deal %zu is in %s already.", deal, earlier);
}

static int add_file(const struct wordlist *files, size_t which, struct sheet *total) {
    struct sheet sheet;
    const char *name = files->word[which];
    int status = sheet_read(adds, name, &sheet);
    if (status != STATUS_DONE) {
        return status;
    }
    if (which == 0) {
        sheet_empty(&sheet, total);
    }
    uint8_t number = sheet_add(total, &sheet);
    if (number == CORBELNIB_DONE) {
        return STATUS_DONE;
    }
    /* what was added is good: it is this file that is not */
    struct refusal refusal = {0};
    refuse_sheet(&refusal, number, &sheet);
    if (number == CORBELNIB_OTHER_SETTINGS) {
        say_settings(&refusal.words, &sheet, files->word[0], total);
    } else if (number == CORBELNIB_COMMON_DEAL) {
        say_common(&refusal.words, files, which, &sheet, total);
    }
    tell_refusal(adds, input_name(name), &refusal);
    return STATUS_REFUSED;
}

static int add(int argc, char **argv) {
    const char *output = NULL;
    bool json = false; /* a failure is, and nothing else (main.c) */
    const struct option options[] = {{"-o", NULL, &output}, {"--json", &json, NULL}, {0}};
    struct wordlist files;
    struct sheet total;
    int status = part_files(adds, argc, argv, options, &files);
    if (status == STATUS_DONE) {
        status = sheet_writable(adds, output);
    }
    for (size_t i = 0; status == STATUS_DONE && i < files.count; i++) {
        status = add_file(&files, i, &total);
    }
    return status == STATUS_DONE ? sheet_write(adds, output, &total) : status;
}

/* ---- show */

/* A sheet is looked through by adding it to that of no deal. */
static int read_good(const char *name, struct sheet *sheet) {
    struct sheet empty;
    int status = sheet_read(shows, name, sheet);
    if (status != STATUS_DONE) {
        return status;
    }
    sheet_empty(sheet, &empty);
    uint8_t number = sheet_add(&empty, sheet);
    if (number != CORBELNIB_DONE) {
        struct refusal refusal = {0};
        refuse_sheet(&refusal, number, sheet);
        tell_refusal(shows, input_name(name), &refusal);
        return STATUS_REFUSED;
    }
    return STATUS_DONE;
}

/* How sheets are shown. */
struct shown {
    bool json, csv, several;
    size_t count; /* of those before */
};

static void show_one(struct shown *shown, const char *name, const struct sheet *sheet) {
    if (shown->json) {
        figures_json(name, sheet, shown->several);
    } else if (shown->csv) {
        figures_csv(name, sheet);
    } else {
        printf("%s%s\n", shown->count ? "\n" : "", name);
        figures_show(sheet);
    }
    shown->count++;
}

/* Every file that can be shown is; the last that cannot gives the status. */
static int show(int argc, char **argv) {
    struct shown shown = {0};
    const struct option options[] = {{"--json", &shown.json, NULL}, {"--csv", &shown.csv, NULL}, {0}};
    struct wordlist files;
    int status = part_files(shows, argc, argv, options, &files);
    if (status == STATUS_DONE && shown.json && shown.csv) {
        status = wrong_use(shows, "--json and --csv do not go together");
    }
    if (status != STATUS_DONE) {
        return status;
    }
    shown.several = files.count > 1;
    if (shown.csv) {
        figures_csv_head();
    }
    for (size_t i = 0; i < files.count; i++) {
        struct sheet sheet;
        int came = read_good(files.word[i], &sheet);
        if (came == STATUS_DONE) {
            show_one(&shown, input_name(files.word[i]), &sheet);
        } else {
            status = came;
        }
    }
    return status;
}

int run_season(int argc, char **argv) {
    static const struct {
        const char *name;
        int (*does)(int argc, char **argv);
    } works[] = {{"run", run}, {"add", add}, {"show", show}};
    for (size_t i = 0; argc > 0 && i < sizeof works / sizeof *works; i++) {
        if (strcmp(argv[0], works[i].name) == 0) {
            return works[i].does(argc - 1, argv + 1);
        }
    }
    struct said said = {0};
    if (argc > 0) {
        say_quoted(&said, (const unsigned char *)argv[0], strlen(argv[0]));
        say(&said, " is none of them; ");
    }
    say(&said, "run, add or show is expected");
    return wrong_use("season", said.text);
}
