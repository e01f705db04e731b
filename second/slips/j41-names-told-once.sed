# file: judge.c
# says: of two with one name only the second is told
/^static void names_and_priorities/,/^}/{s/bearers\[name_of(s->m, s->processors.page\[i\])\]++;/;/;s/bearers\[name\] > 1/++bearers[name] > 1/}
