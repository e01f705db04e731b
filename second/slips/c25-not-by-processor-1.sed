# file: operation.c
# says: processor 1 may create above itself
s/if (g->priority > priority_of(r->m, r->page))/if (g->priority > priority_of(r->m, r->page) \&\& r->name != 1)/
