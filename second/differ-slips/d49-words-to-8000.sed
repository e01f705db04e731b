# file: differ.c
# says: word lines end at 8,000
s/next_difference(first, second, 0); i < WORDS;/next_difference(first, second, 0); i < 8000;/
