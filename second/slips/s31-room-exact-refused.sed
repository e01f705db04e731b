# file: settings.c
# says: room that is just enough is refused
s/TRAILER_BYTES > room/TRAILER_BYTES >= room/
