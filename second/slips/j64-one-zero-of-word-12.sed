# file: judge.c
# says: one of the two zeros of word 12 may be set
/^static void zeros_of_word_12/,/^}/s/STATE_ZEROS/16/
