# file: operation.c
# says: the pointer of an indirect jump is not tested
s/if (any_protected(address, 2))/if (g->flag < 4 \&\& any_protected(address, 2))/
