# file: differing.c
# says: a length is taken by its low four bits
s/    unsigned words = text_length(first, one);/    unsigned words = text_length(first, one) % 16;/
