# file: settings.c
# says: more bytes in use than room is taken as the room
s/^    size_t start = used == 0 ? 0 : used - TRAILER_BYTES;/    size_t start;\n\n    used = used > room ? room : used;\n    start = used == 0 ? 0 : used - TRAILER_BYTES;/
