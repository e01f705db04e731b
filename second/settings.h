/*
 * Settings as bytes: a block is a head and its entries; a file is any bytes, then the newest block, then a
 * trailer that points back to it.
 */
#ifndef SETTINGS_H
#define SETTINGS_H

#include <stddef.h>
#include <stdint.h>

enum { OWN_VERSION = 3, MOST_ENTRIES = 14, ENTRY_BYTES = 5, LABEL_BYTES = 12, TRAILER_BYTES = 4, LONGEST_BLOCK = 87 };

/* Bytes of a block: the head, by version, then the entries. */
enum { AT_VERSION = 0, AT_COUNT = 1, AT_LINE = 2, AT_DIVIDER = 3, AT_SITE = 4, AT_LABEL = 5 };

/* Bytes of an entry; the address has its high byte first. */
enum { AT_NAME = 0, AT_PRIORITY = 1, AT_W = 2, AT_HIGH = 3, AT_LOW = 4 };

/* Bytes of a trailer; the distance has its high byte first. */
enum { AT_DISTANCE = 0, AT_LAST_VERSION = 2, AT_LAST_COUNT = 3 };

/* Good if the number is 0, else the refusal 26, 28 or 29; of 29 the version too. */
struct verdict {
    unsigned number, version;
};

size_t head_length(unsigned version);
size_t block_length(unsigned version, unsigned entries);
struct verdict verdict_of_block(const uint8_t *block, size_t length);
struct verdict verdict_of_file(const uint8_t *file, size_t length);

/* The newest block of a good file, and its length. */
const uint8_t *newest_block(const uint8_t *file, size_t file_length, size_t *length);

#endif
