# file: operation.c
# says: CRP below its runner is 13
s/g->priority > priority_of(r->m, r->page)/g->priority < priority_of(r->m, r->page)/
