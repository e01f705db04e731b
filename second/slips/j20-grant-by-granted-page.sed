# file: judge.c
# says: a grant to nobody is told by the page granted
/^static void grants_to_names/,/^}/s/tell_unless(told, GRANTS + name, /tell_unless(told, at(s->m[GRANTS + name], LINK), /
