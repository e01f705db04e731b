# file: judge.c
# says: a priority may be 0
/^static void names_and_priorities/,/^}/s/ || priority_of(s->m, page) == 0//
