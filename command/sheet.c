#define _XOPEN_SOURCE 700

#include "sheet.h"

#include <errno.h>
#include <fcntl.h>
#include <stdio.h>
#include <stdlib.h>
#include <string.h>
#include <sys/stat.h>
#include <unistd.h>

#include "input.h"
#include "options.h"
#include "say.h"

/* A second name is the first with a process and a turn behind it. */
#define BESIDE_MORE 40
#define TURNS 100

bool sheet_covers(const struct sheet *sheet, size_t deal) {
    return sheet->word[CORBELNIB_SHEET_COVERS + (deal - 1) / 64] >> ((deal - 1) % 64) & 1;
}

void sheet_empty(const struct sheet *settings, struct sheet *empty) {
    memset(empty, 0, sizeof *empty);
    empty->word[CORBELNIB_SHEET_BUDGET] = settings->word[CORBELNIB_SHEET_BUDGET];
    empty->word[CORBELNIB_SHEET_CAPACITY] = settings->word[CORBELNIB_SHEET_CAPACITY];
    empty->word[CORBELNIB_SHEET_FLAG] = settings->word[CORBELNIB_SHEET_FLAG];
}

uint8_t sheet_add(struct sheet *total, const struct sheet *sheet) {
    return corbelnib_add(total->word, CORBELNIB_SHEET, sheet->word, CORBELNIB_SHEET);
}

int sheet_read(const char *who, const char *name, struct sheet *sheet) {
    struct input input;
    struct said why = {0};
    input_prompt(name, "a sheet");
    int status = input_read(name, INPUT_MOST, &input, &why);
    if (status == STATUS_DONE && input.length != SHEET_BYTES) {
        say(&why, "it has ");
        say_count(&why, input.length, "byte", "bytes");
        say(&why, "; a sheet has %s", grouped(SHEET_BYTES).text);
        status = STATUS_REFUSED;
    }
    if (status != STATUS_DONE) {
        input_free(&input);
        return complain(status, who, "%s: %s", input_name(name), why.text);
    }
    memset(sheet, 0, sizeof *sheet);
    for (size_t i = 0; i < SHEET_BYTES; i++) {
        sheet->word[i / 8] |= (uint64_t)input.bytes[i] << (8 * (i % 8));
    }
    input_free(&input);
    return STATUS_DONE;
}

static int not_made(const char *who, const char *name) {
    return complain(STATUS_NO_FILE, who, "%s: it cannot be made: %s", name, strerror(errno));
}

static int not_written(const char *who, const char *name) {
    return complain(STATUS_NO_OUTPUT, who, "%s: it cannot be written: %s", name, strerror(errno));
}

static bool put(FILE *file, const uint8_t *bytes) {
    return fwrite(bytes, 1, SHEET_BYTES, file) == SHEET_BYTES && fflush(file) == 0;
}

/* A new file beside the one that is to be; its name goes to `beside`. NULL if none can be made. */
static FILE *made_beside(const char *name, char *beside, size_t room) {
    int made = -1;
    for (int turn = 0; turn < TURNS && made < 0; turn++) {
        snprintf(beside, room, "%s.%ld-%d", name, (long)getpid(), turn);
        made = open(beside, O_WRONLY | O_CREAT | O_EXCL, 0666);
        if (made < 0 && errno != EEXIST) {
            break;
        }
    }
    FILE *file = made < 0 ? NULL : fdopen(made, "wb");
    if (made >= 0 && !file) {
        close(made);
        unlink(beside);
    }
    return file;
}

/* Writes the new file and renames it. Without bytes it is only tried, and the new file goes again. */
static int finish(const char *who, const char *name, FILE *file, const char *beside, const uint8_t *bytes) {
    bool written = !bytes || (put(file, bytes) && fsync(fileno(file)) == 0);
    int status = written ? STATUS_DONE : not_written(who, name);
    if (fclose(file) != 0 && status == STATUS_DONE) {
        status = not_written(who, name);
    }
    if (bytes && status == STATUS_DONE && rename(beside, name) != 0) {
        status = not_made(who, name);
    }
    if (!bytes || status != STATUS_DONE) {
        unlink(beside);
    }
    return status;
}

static int put_beside(const char *who, const char *name, const uint8_t *bytes) {
    size_t room = strlen(name) + BESIDE_MORE;
    char *beside = malloc(room);
    FILE *file = beside ? made_beside(name, beside, room) : NULL;
    int status = file ? finish(who, name, file, beside, bytes) : not_made(who, name);
    free(beside);
    return status;
}

/* What is there and is no plain file (a device, a pipe) keeps its place, and is written to as it stands. */
static int put_straight(const char *who, const char *name, const uint8_t *bytes) {
    if (!bytes) {
        return access(name, W_OK) == 0 ? STATUS_DONE : not_made(who, name);
    }
    FILE *file = fopen(name, "wb");
    if (!file) {
        return not_made(who, name);
    }
    bool written = put(file, bytes);
    int status = written ? STATUS_DONE : not_written(who, name);
    return fclose(file) != 0 && written ? not_written(who, name) : status;
}

/* Without bytes it is only tried. */
static int put_file(const char *who, const char *name, const uint8_t *bytes) {
    struct stat there;
    if (*name == '\0') {
        return complain(STATUS_NO_FILE, who, "\"\" is no file's name");
    }
    if (stat(name, &there) != 0) {
        return put_beside(who, name, bytes);
    }
    if (S_ISDIR(there.st_mode)) {
        return complain(STATUS_NO_FILE, who, "%s: it cannot be made: it is a folder", name);
    }
    if (!S_ISREG(there.st_mode)) {
        return put_straight(who, name, bytes);
    }
    char *real = realpath(name, NULL); /* behind a link */
    int status = real ? put_beside(who, real, bytes) : not_made(who, name);
    free(real);
    return status;
}

int sheet_write(const char *who, const char *name, const struct sheet *sheet) {
    uint8_t bytes[SHEET_BYTES];
    for (size_t i = 0; i < SHEET_BYTES; i++) {
        bytes[i] = (uint8_t)(sheet->word[i / 8] >> (8 * (i % 8)));
    }
    if (name) {
        return put_file(who, name, bytes);
    }
    static char room[2 * SHEET_BYTES]; /* all of it goes out, or fails, where main looks */
    setvbuf(stdout, room, _IOFBF, sizeof room);
    fwrite(bytes, 1, SHEET_BYTES, stdout);
    return STATUS_DONE;
}

int sheet_writable(const char *who, const char *name) {
    if (name) {
        return put_file(who, name, NULL);
    }
    return isatty(STDOUT_FILENO) ? wrong_use(who, "-o is missing: a sheet is no text for a terminal") : STATUS_DONE;
}
