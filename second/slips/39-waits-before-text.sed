# file: operation.c
# says: SME waits for a page before its text is tested
s/    if (any_protected(g->address + 1, r->m\[g->address\]))/    if ((r->m[FREE_LIST] | r->m[GRANTS + r->name]) != 0 \&\& any_protected(g->address + 1, r->m[g->address]))/
