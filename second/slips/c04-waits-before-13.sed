# file: operation.c
# says: CRP above its runner waits for a page if there is none
s/if (g->priority > priority_of(r->m, r->page))/if (g->priority > priority_of(r->m, r->page) \&\& (r->m[FREE_LIST] | r->m[GRANTS + r->name]) != 0)/
