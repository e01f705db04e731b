# file: operation.c
# says: a CRP above its runner loses its grant, and the page is nobody's
/^static unsigned create_processor/,/^}/s/^    if (fault != 0)$/    if (fault == FAULT_ABOVE_ITSELF) store(m, GRANTS + r->name, 0);\n&/
