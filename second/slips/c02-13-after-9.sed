# file: operation.c
# says: CRP above its runner with a name that exists is 9
s/if (g->priority > priority_of(r->m, r->page))/if (g->priority > priority_of(r->m, r->page) \&\& find_processor(r->m, g->field) == 0)/
