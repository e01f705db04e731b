# file: settings.c
# says: the trailer written has the distance from the file's end
s/^    put_trailer(file + start + length, block, length);/&\n    file[start + length + 1] = (uint8_t)(length + TRAILER_BYTES);/
