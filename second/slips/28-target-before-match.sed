# file: operation.c
# says: RME tests three words of its target before it looks for a match
/^static unsigned read_message/,/^}/s/^    if (message == 0)$/    if (any_protected(g->address, 3)) return FAULT_PROTECTED;\n&/
