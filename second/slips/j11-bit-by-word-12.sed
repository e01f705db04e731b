# file: judge.c
# says: a waiting bit is told by word 12
/^static void waiting_bits/,/^}/s/tell_page(told, page);/tell(told, at(page, STATE));/
