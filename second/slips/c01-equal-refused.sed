# file: operation.c
# says: CRP as high as its runner is 13
s/g->priority > priority_of(r->m, r->page)/g->priority >= priority_of(r->m, r->page)/
