# file: judge.c
# says: C0 at divider 0 is told by the divider only
/^static void counters/,/^}/s/s->m\[C0 + i\] < ends\[i\]/s->m[C0 + i] < ends[i] || ends[i] == 0/
