# file: judge.c
# says: a false end of a Q2 is not seen
/^static void lists_end/,/^}/s/tell_false_end(told, &s->q2\[i\]);/;/
