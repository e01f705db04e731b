# file: operation.c
# says: RME tests its target with word 2 as the length
s/any_protected(g->address, 3 + length)/any_protected(g->address, 3u + (m[at(message, LENGTH)] == NOTICE ? 0u : m[at(message, LENGTH)]))/
