# file: operation.c
# says: with a grant CRP may create above its runner
s/if (g->priority > priority_of(r->m, r->page))/if (g->priority > priority_of(r->m, r->page) \&\& r->m[GRANTS + r->name] == 0)/
