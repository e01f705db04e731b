# file: settings.c
# says: a version 2 block is read with a label too
/^size_t head_length/,/^}/s/version == 2 ? 5 : 17/17/
