# file: judge.c
# says: a wrong sender, flag or length is told by word 1
/^static void tell_bad_messages/,/^}/s/tell_page(told, page);/tell(told, at(page, FROM));/
