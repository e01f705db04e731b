# file: operation.c
# says: priority and name are compared as one number
s/g->priority > priority_of(r->m, r->page)/g->priority * 16 + g->field > r->m[at(r->page, WHO)]/
