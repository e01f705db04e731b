# file: operation.c
# says: CRP by EXI may create above its runner
s/if (g->priority > priority_of(r->m, r->page))/if (g->priority > priority_of(r->m, r->page) \&\& r->after == wrap(get_lr(r->m, r->page) + 5))/
