# file: settings.c
# says: a label of twelve letters is refused
/^static bool is_label/,/^}/s/return i == LABEL_BYTES;/return i == LABEL_BYTES \&\& label[LABEL_BYTES - 1] == 0;/
