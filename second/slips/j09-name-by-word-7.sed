# file: judge.c
# says: a wrong name or priority is told by word 7
/^static void names_and_priorities/,/^}/s/tell_page(told, page);/tell(told, at(page, WHO));/
