# file: operation.c
# says: RME tests three words of its target only
s/any_protected(g->address, 3 + length)/any_protected(g->address, 3)/
