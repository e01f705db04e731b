# file: judge.c
# says: a message wait may match nothing in Q2 either
s/any_match(s->m, &s->q1\[i\], reason)/(any_match(s->m, \&s->q1[i], reason) || any_match(s->m, \&s->q2[i], reason))/
