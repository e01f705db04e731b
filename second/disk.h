/* Files of the system, read and written whole. */
#ifndef DISK_H
#define DISK_H

#include <stdbool.h>
#include <stddef.h>
#include <stdint.h>

enum { ROOM = 8192 };

/* What was read: the bytes in use, or that there are more than the buffer holds. */
struct contents {
    uint8_t bytes[ROOM];
    size_t used;
    bool too_long;
};

/* False, with the system's reason in errno, if it cannot be opened or read. */
bool read_file(const char *name, struct contents *contents);

/* By way of NAME.new; where the system refuses, its reason goes to standard error, and it is false. */
bool replace_file(const char *name, const uint8_t *bytes, size_t count);

#endif
