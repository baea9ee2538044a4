/* corbelnib: a FreeCell judge on the command line, over the C boundary alone (include/corbelnib.h). */
#include <errno.h>
#include <stdbool.h>
#include <stdio.h>
#include <string.h>

#include "commands.h"
#include "emit.h"
#include "fold.h"
#include "identity.h"
#include "say.h"
#include "version.h"

static const struct command commands[] = {
    {"deal", run_deal, "the hand of a number: text, picture or image", help_deal},
    {"judge", run_judge, "look for a winning line", help_judge},
    {"play", run_play, "play a line of moves by the rules", help_play},
    {"agree", run_agree, "what may be published of one answer, or of two to one board", help_agree},
    {"season", run_season, "sheets of figures over many deals: made, added, shown", help_season},
};

#define COMMANDS (sizeof commands / sizeof *commands)

static void print_help(void) {
    struct said said = {0};
    say(&said, "usage: corbelnib COMMAND ..\n\nA FreeCell judge.\n\n");
    for (size_t i = 0; i < COMMANDS; i++) {
        say(&said, "  %-8s %s\n", commands[i].name, commands[i].brief);
    }
    say(&said, "\n`corbelnib COMMAND --help` tells more, with examples; `corbelnib --version` prints the version.\n");
    print_folded(stdout, said.text);
}

static int no_command(const char *word) {
    struct said said = {0};
    if (word) {
        say_quoted(&said, (const unsigned char *)word, strlen(word));
        say(&said, " is no command; ");
    }
    for (size_t i = 0; i < COMMANDS; i++) {
        say(&said, "%s%s", i == 0 ? "" : i + 1 < COMMANDS ? ", " : " or ", commands[i].name);
    }
    return complain(STATUS_USAGE, NULL, "%s is expected; `corbelnib --help` tells more", said.text);
}

static bool is_help(const char *word) {
    return strcmp(word, "--help") == 0 || strcmp(word, "-h") == 0;
}

static bool is_json(const char *word) {
    return strcmp(word, "--json") == 0;
}

/* Whether such a word is among some. */
static bool asks(int argc, char **argv, bool (*such)(const char *word)) {
    for (int i = 0; i < argc && strcmp(argv[i], "--") != 0; i++) {
        if (such(argv[i])) {
            return true;
        }
    }
    return false;
}

static const struct command *command_named(const char *name) {
    for (size_t i = 0; i < COMMANDS; i++) {
        if (strcmp(name, commands[i].name) == 0) {
            return &commands[i];
        }
    }
    return NULL;
}

/* `help`, alone or with a command's name behind it. */
static int run_help(const char *name) {
    const struct command *command = name ? command_named(name) : NULL;
    if (name && !command) {
        return no_command(name);
    }
    if (command) {
        print_folded(stdout, command->help);
    } else {
        print_help();
    }
    return STATUS_DONE;
}

static int run(int argc, char **argv) {
    if (argc < 2) {
        return no_command(NULL);
    }
    if (is_help(argv[1]) || strcmp(argv[1], "help") == 0) {
        return run_help(argc > 2 ? argv[2] : NULL);
    }
    if (strcmp(argv[1], "--version") == 0 || strcmp(argv[1], "-V") == 0) {
        identity_print();
        return STATUS_DONE;
    }
    if (asks(argc - 1, argv + 1, is_json)) {
        failures_in_json();
    }
    const struct command *command = command_named(argv[1]);
    if (!command) {
        return no_command(argv[1]);
    }
    if (asks(argc - 2, argv + 2, is_help)) {
        return run_help(command->name);
    }
    if (!is_proved()) {
        fprintf(stderr, "corbelnib: NOT PROVED: this command was built without the proofs (make unproved)\n");
    }
    return command->run(argc - 2, argv + 2);
}

/* What could not be written was not told, whatever it was. */
int main(int argc, char **argv) {
    int status = run(argc, argv);
    errno = 0;
    if (fflush(stdout) != 0 || ferror(stdout)) {
        return complain(STATUS_NO_OUTPUT, NULL, "the output cannot be written%s%s", errno ? ": " : "", errno ? strerror(errno) : "");
    }
    return status;
}
