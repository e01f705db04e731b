# file: operation.c
# says: CRP may create one priority above its runner
s/g->priority > priority_of(r->m, r->page)/g->priority > priority_of(r->m, r->page) + 1/
