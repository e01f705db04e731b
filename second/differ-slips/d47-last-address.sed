# file: differ.c
# says: the last address is left out
s/next_difference(first, second, 0); i < WORDS;/next_difference(first, second, 0); i < WORDS - 1;/
