/* The subcommands. A new one needs a function, its help, and a line in the table of main.c. */
#ifndef COMMAND_COMMANDS_H
#define COMMAND_COMMANDS_H

struct command {
    const char *name;
    int (*run)(int argc, char **argv); /* the words after the name; hands back a status of say.h */
    const char *brief;                 /* one line for `corbelnib --help` */
    const char *help;                  /* what `corbelnib NAME --help` prints */
};

int run_deal(int argc, char **argv);
int run_judge(int argc, char **argv);
int run_play(int argc, char **argv);
int run_agree(int argc, char **argv);
int run_season(int argc, char **argv);

extern const char help_deal[];
extern const char help_judge[];
extern const char help_play[];
extern const char help_agree[];
extern const char help_season[];

#endif
