# file: judge.c
# says: a false end on a page is told by its own word
/^static void tell_false_end/,/^}/s/tell_page(told, w->false_end \/ PAGE_WORDS);/tell(told, w->false_end);/
