# file: differing.c
# says: the stale text of a notice is compared
s/    unsigned words = text_length(first, one);/    unsigned words = first[at(one, LENGTH)] == NOTICE ? LONGEST_TEXT : text_length(first, one);/
