# file: settings.c
# says: a label without a letter is refused
/^static bool is_label/,/^}/s/return i == LABEL_BYTES;/return i == LABEL_BYTES \&\& label[0] != 0;/
