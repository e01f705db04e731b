# file: judge.c
# says: the runner may have less than the highest priority
s/ && priority_of(s->m, running) == highest//
