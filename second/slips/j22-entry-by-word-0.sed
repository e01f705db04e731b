# file: judge.c
# says: an entry of page 9 is told by word 0
/^static void page_9_entries/,/^}/s/tell_unless(told, FAULT_TABLE + word, /tell_unless(told, FAULT_TABLE, /
