# file: settings.c
# says: a block in an empty file stands from 4 on
s/used == 0 ? 0 : used - TRAILER_BYTES;/used == 0 ? TRAILER_BYTES : used - TRAILER_BYTES;/
