# file: differing.c
# says: the reason of a message wait is left out
s/    return b->m\[at(b->page, REASON)\];/    return queue_waited_in(b) == FOR_A_MESSAGE ? 0 : b->m[at(b->page, REASON)];/
