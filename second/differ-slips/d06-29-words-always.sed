# file: differing.c
# says: all words of a message are compared, whatever its length
s/    unsigned words = text_length(first, one);/    unsigned words = LONGEST_TEXT;/
