# file: judge.c
# says: word 25 may be anything while idle
s/s->m\[RUNNING_WHO\] == (running == 0 ? 0 : s->m\[at(running, WHO)\])/running == 0 || s->m[RUNNING_WHO] == s->m[at(running, WHO)]/
