# file: operation.c
# says: CRP above its runner with name 0 is 13
s/    if (g->field == 0 || g->priority == 0)/    if (g->priority == 0 || (g->field == 0 \&\& g->priority <= priority_of(r->m, r->page)))/
