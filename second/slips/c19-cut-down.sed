# file: operation.c
# says: CRP above its runner creates with the runner's priority
/g->priority > priority_of(r->m, r->page)/,+1d
s/g->field, g->priority, g->w, g->address);/g->field, g->priority > priority_of(m, r->page) ? priority_of(m, r->page) : g->priority, g->w, g->address);/
