/* Runs a command at a terminal of its own: terminal [--width N] [--stop TEXT | --type TEXT] COMMAND [WORD..]
 * Its standard input and error are the terminal, its standard output is that of this program. What came on the terminal is printed after the
 * end, a carriage return as a new line and spaces at the ends of lines left out. With --stop Ctrl-C is typed as soon as the terminal shows
 * TEXT; with --type TEXT is typed as soon as anything is shown, and Ctrl-D behind it. With --width the terminal tells N columns, else none.
 * The status is the command's; 128 and its number for a signal. */
#define _DEFAULT_SOURCE
#define _XOPEN_SOURCE 700

#include <fcntl.h>
#include <signal.h>
#include <stdio.h>
#include <stdlib.h>
#include <string.h>
#include <sys/ioctl.h>
#include <sys/wait.h>
#include <unistd.h>

#define SHOWN_MOST ((size_t)64 * 1024)
#define CTRL_C "\003"
#define CTRL_D "\n\004" /* on a line of its own */

struct asked {
    const char *stop, *type, *width;
};

static char shown[SHOWN_MOST + 1];
static size_t length;

/* Does not come back. */
static void become(const char *name, char **words) {
    setsid();
    int terminal = open(name, O_RDWR);
    if (terminal < 0) {
        perror(name);
        _exit(2);
    }
    dup2(terminal, STDIN_FILENO);
    dup2(terminal, STDERR_FILENO);
    /* whoever started this may have shut Ctrl-C out */
    signal(SIGINT, SIG_DFL);
    execvp(words[0], words);
    perror(words[0]);
    _exit(2);
}

static void type(int master, const char *text) {
    if (write(master, text, strlen(text)) < 0) {
        perror("what is typed");
    }
}

/* Reads what is shown until the terminal is shut. */
static void look(int master, const struct asked *asked) {
    const char *stop = asked->stop, *text = asked->type;
    ssize_t came;
    while (length < SHOWN_MOST && (came = read(master, shown + length, SHOWN_MOST - length)) > 0) {
        length += (size_t)came;
        shown[length] = '\0';
        if (stop && strstr(shown, stop)) {
            type(master, CTRL_C);
            stop = NULL;
        }
        if (text) {
            type(master, text);
            type(master, CTRL_D);
            text = NULL;
        }
    }
}

static void print_line(const char *from, const char *to) {
    while (to > from && to[-1] == ' ') {
        to--;
    }
    if (to > from) {
        printf("%.*s\n", (int)(to - from), from);
    }
}

static void print_shown(void) {
    const char *from = shown;
    for (const char *at = shown; at <= shown + length; at++) {
        if (*at == '\r' || *at == '\n' || *at == '\0') {
            print_line(from, at);
            from = at + 1;
        }
    }
}

/* Takes the options; hands back the command. */
static char **part(char **words, struct asked *asked) {
    const struct {
        const char *name, **value;
    } options[] = {{"--stop", &asked->stop}, {"--type", &asked->type}, {"--width", &asked->width}};
    for (size_t i = 0; i < sizeof options / sizeof *options; i++) {
        if (words[0] && words[1] && strcmp(words[0], options[i].name) == 0) {
            *options[i].value = words[1];
            return part(words + 2, asked);
        }
    }
    return words;
}

static void tell_width(int master, const char *width) {
    struct winsize size = {.ws_row = 24};
    size.ws_col = (unsigned short)strtoul(width, NULL, 10);
    ioctl(master, TIOCSWINSZ, &size);
}

int main(int argc, char **argv) {
    struct asked asked = {0};
    char **words = part(argv + (argc > 0), &asked);
    int master = posix_openpt(O_RDWR | O_NOCTTY), status = 0;
    if (!*words || master < 0 || grantpt(master) != 0 || unlockpt(master) != 0) {
        fprintf(stderr, "terminal: no command, or no terminal is to be had\n");
        return 64;
    }
    if (asked.width) {
        tell_width(master, asked.width);
    }
    char *name = ptsname(master);
    pid_t child = fork();
    if (child > 0) {
        alarm(120); /* what is waited for and never comes fails, and does not hang */
    }
    if (child == 0) {
        become(name, words);
    }
    look(master, &asked);
    if (child < 0 || waitpid(child, &status, 0) != child) {
        perror("terminal");
        return 2;
    }
    print_shown();
    return WIFEXITED(status) ? WEXITSTATUS(status) : 128 + WTERMSIG(status);
}
