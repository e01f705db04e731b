# file: operation.c
# says: RME tests room for the longest text, not for the length found
s/any_protected(g->address, 3 + length)/any_protected(g->address, 3 + LONGEST_TEXT)/
