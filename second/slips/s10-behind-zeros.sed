# file: settings.c
# says: a byte behind the zeros of a label is taken
/^static bool is_label/,/^}/s/return i == LABEL_BYTES;/return i == LABEL_BYTES || (i > 0 \&\& label[i - 1] == 0);/
