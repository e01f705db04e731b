# file: operation.c
# says: SME with a length over 29 and protected text is 11
s/    if (r->m\[g->address\] > LONGEST_TEXT)/    if (r->m[g->address] > LONGEST_TEXT \&\& !any_protected(g->address + 1, LONGEST_TEXT))/
