# file: differ.c
# says: Q1 and Q2 are told before state and priority
/^static bool print_aspects/,/^}/s/c->differs\[i\]/c->differs[(i + 2) % ASPECTS]/
s/printf(" %s", aspects\[i\]);/printf(" %s", aspects[(i + 2) % ASPECTS]);/
