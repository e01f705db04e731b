# file: judge.c
# says: the last word of page 9 may be anything if unused
/^static void page_9_entries/,/^}/s/ : entry == 0/ : entry == 0 || word == 31/
