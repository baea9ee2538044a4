#define _POSIX_C_SOURCE 200809L

#include "input.h"

#include <errno.h>
#include <stdio.h>
#include <stdlib.h>
#include <string.h>
#include <unistd.h>

#include "utf8.h"

const char *input_name(const char *name) {
    return strcmp(name, "-") == 0 ? "standard input" : shown_name(name);
}

void input_free(struct input *input) {
    free(input->bytes);
    input->bytes = NULL;
}

/* One byte more than may come is asked for, so that too long an input is seen. */
static int fill(FILE *file, size_t most, struct input *input, struct said *why) {
    input->bytes = malloc(most + 1);
    if (!input->bytes) {
        say(why, "no memory to read it");
        return STATUS_NO_MEMORY;
    }
    errno = 0;
    input->length = fread(input->bytes, 1, most + 1, file);
    if (ferror(file)) {
        say(why, "it cannot be read: %s", strerror(errno));
        return STATUS_NO_INPUT;
    }
    if (input->length > most) {
        say(why, "it has more than ");
        say_number(why, most);
        say(why, " bytes, and nothing that is read here has so many");
        return STATUS_REFUSED;
    }
    return STATUS_DONE;
}

void input_prompt(const char *name, const char *what) {
    if (strcmp(name, "-") == 0 && isatty(STDIN_FILENO)) {
        fprintf(stderr, "(%s is read from this terminal; Ctrl-D on a line of its own ends it)\n", what);
    }
}

int input_read(const char *name, size_t most, struct input *input, struct said *why) {
    FILE *file = strcmp(name, "-") == 0 ? stdin : fopen(name, "rb");
    input->bytes = NULL;
    input->length = 0;
    if (!file) {
        say(why, "it cannot be opened: %s", strerror(errno));
        return STATUS_NO_INPUT;
    }
    int status = fill(file, most, input, why);
    if (file != stdin) {
        fclose(file);
    }
    if (status != STATUS_DONE) {
        input_free(input);
    }
    return status;
}
