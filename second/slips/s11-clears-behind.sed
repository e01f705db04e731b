# file: settings.c
# says: writing clears what is behind the new length
s/^    put_trailer(file + start + length, block, length);/&\n    memset(file + start + length + TRAILER_BYTES, 0, room - start - length - TRAILER_BYTES);/
