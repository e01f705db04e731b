# file: operation.c
# says: CRP is tested against the first on the processor list
s/g->priority > priority_of(r->m, r->page)/g->priority > priority_of(r->m, r->m[PROCESSOR_LIST])/
