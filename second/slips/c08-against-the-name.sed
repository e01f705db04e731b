# file: operation.c
# says: CRP is tested against the runner's name
s/g->priority > priority_of(r->m, r->page)/g->priority > name_of(r->m, r->page)/
