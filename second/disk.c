/* Files of the system.  A longer one is noticed by trying to read one byte more. */
#include "disk.h"

#include <stdio.h>
#include <stdlib.h>
#include <string.h>

bool read_file(const char *name, struct contents *contents)
{
    FILE *in = fopen(name, "rb");
    bool well;

    if (in == NULL)
        return false;
    contents->used = fread(contents->bytes, 1, ROOM, in);
    contents->too_long = contents->used == ROOM && getc(in) != EOF;
    well = !ferror(in);
    fclose(in);
    return well;
}

static bool write_file(const char *name, const uint8_t *bytes, size_t count)
{
    FILE *out = fopen(name, "wb");
    bool well;

    if (out == NULL)
        return false;
    well = fwrite(bytes, 1, count, out) == count;
    return fclose(out) == 0 && well;
}

/* "New contents go to `FILE.new`, which is then renamed to FILE" */
bool replace_file(const char *name, const uint8_t *bytes, size_t count)
{
    char *new_name = malloc(strlen(name) + sizeof ".new");
    bool well;

    if (new_name == NULL) {
        perror(name);
        return false;
    }
    strcpy(new_name, name);
    strcat(new_name, ".new");
    well = write_file(new_name, bytes, count) && rename(new_name, name) == 0;
    if (!well)
        perror(new_name);
    free(new_name);
    return well;
}
