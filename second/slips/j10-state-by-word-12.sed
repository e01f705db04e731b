# file: judge.c
# says: the zeros of word 12 are told by that word
/^static void zeros_of_word_12/,/^}/s/tell_page(told, s->processors.page\[i\]);/tell(told, at(s->processors.page[i], STATE));/
