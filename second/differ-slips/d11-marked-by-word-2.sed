# file: differing.c
# says: of marked mail as many words are compared as word 2 says, with the mark
s/    unsigned words = text_length(first, one);/    unsigned words = first[at(one, LENGTH)] % 128u;/
