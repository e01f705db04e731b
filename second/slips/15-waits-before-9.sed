# file: operation.c
# says: CRP of an existing name waits for a page if there is none
s/if (find_processor(r->m, g->field) != 0)/if (find_processor(r->m, g->field) != 0 \&\& (r->m[FREE_LIST] | r->m[GRANTS + r->name]) != 0)/
