# file: operation.c
# says: RME hands out the length with the mark
s/store(m, g->address + 2, length);/store(m, g->address + 2, m[at(message, LENGTH)] == NOTICE ? 0u : m[at(message, LENGTH)]);/
