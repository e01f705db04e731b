# file: settings.c
# says: room that is short by one is taken
/^struct answer kernel_write_settings/,/^}/s/TRAILER_BYTES > room/TRAILER_BYTES > room + 1/
