# file: settings.c
# says: the old trailer is left between the blocks
s/used == 0 ? 0 : used - TRAILER_BYTES;/used;/
