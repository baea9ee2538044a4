/* What is wrong with a board that the library refused, and where. */
#ifndef COMMAND_BLAME_H
#define COMMAND_BLAME_H

#include <stddef.h>
#include <stdint.h>

#include "layout.h"
#include "say.h"

/* Of an image that was refused with 10 to 15. */
void blame_image(const uint8_t *image, size_t length, uint8_t number, struct said *said);

/* Of a record of 432 bytes that was refused with 12 to 15. */
void blame_record(const uint8_t *record, uint8_t number, struct said *said);

/* Of a text whose board was refused with 14 or 15. */
void blame_layout(const struct layout *layout, uint8_t number, struct said *said);

#endif
