# file: judge.c
# says: a reason without a wait is told by word 2
/^static void reasons/,/^}/s/tell_page(told, page);/tell(told, at(page, REASON));/
