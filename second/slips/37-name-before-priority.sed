# file: operation.c
# says: CRP of an existing name with priority 0 is 9
s/    if (g->field == 0 || g->priority == 0)/    if (g->field == 0 || (g->priority == 0 \&\& find_processor(r->m, g->field) == 0))/
