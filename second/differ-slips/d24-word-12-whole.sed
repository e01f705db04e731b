# file: differing.c
# says: the state has the whole of word 12
s/    return b->m\[at(b->page, STATE)\] & (STOPPED | WAITING);/    return b->m[at(b->page, STATE)];/
