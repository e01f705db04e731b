# file: differing.c
# says: the text of marked mail is not compared
s/    unsigned words = text_length(first, one);/    unsigned words = is_marked(first[at(one, LENGTH)]) ? 0 : text_length(first, one);/
