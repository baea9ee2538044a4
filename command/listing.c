#include "listing.h"

#include <errno.h>
#include <string.h>

#include "figures.h"
#include "say.h"

int listing_open(const char *who, const char *name, FILE **file) {
    *file = NULL;
    if (!name) {
        return STATUS_DONE;
    }
    errno = 0;
    *file = fopen(name, "w");
    if (!*file) {
        return complain(STATUS_NO_FILE, who, "%s: it cannot be made: %s", name, strerror(errno));
    }
    fprintf(*file, "deal,answer,pops,moves\n");
    return STATUS_DONE;
}

void listing_put(FILE *file, const struct sheet *one, size_t deal) {
    if (!file) {
        return;
    }
    size_t which = 0;
    while (which + 1 < ANSWERS && one->word[CORBELNIB_SHEET_ANSWERS + which] == 0) {
        which++;
    }
    fprintf(file, "%zu,%u,%llu,", deal, answers[which].number, (unsigned long long)one->word[CORBELNIB_SHEET_POPS]);
    /* a sheet has the lengths of won lists alone */
    if (answers[which].number == CORBELNIB_WON) {
        fprintf(file, "%llu", (unsigned long long)one->word[CORBELNIB_SHEET_SHORTEST]);
    }
    fputc('\n', file);
    fflush(file);
}

int listing_close(const char *who, const char *name, FILE *file) {
    if (!file) {
        return STATUS_DONE;
    }
    errno = 0;
    bool written = !ferror(file);
    written = fclose(file) == 0 && written;
    return written ? STATUS_DONE : complain(STATUS_NO_OUTPUT, who, "%s: it cannot be written%s%s", name, errno ? ": " : "", errno ? strerror(errno) : "");
}
