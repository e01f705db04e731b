# file: judge.c
# says: word 0 of page 10 may be anything
s/    tell_unless(told, GRANTS, s->m\[GRANTS\] == 0);//
