# file: operation.c
# says: SME with flag 0 comes after 11 at A
s/if (g->field == 0 || g->flag == 0)/if (g->field == 0 || (g->flag == 0 \&\& !is_protected(g->address)))/
