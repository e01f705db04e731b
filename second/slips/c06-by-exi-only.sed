# file: operation.c
# says: CRP may create above its runner but by EXI
s/if (g->priority > priority_of(r->m, r->page))/if (g->priority > priority_of(r->m, r->page) \&\& r->after != wrap(get_lr(r->m, r->page) + 5))/
