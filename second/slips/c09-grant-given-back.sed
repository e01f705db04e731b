# file: operation.c
# says: a CRP above its runner gives its grant back
/^static unsigned create_processor/,/^}/s/^    if (fault != 0)$/    if (fault == FAULT_ABOVE_ITSELF \&\& m[GRANTS + r->name] != 0) give_back(m, take_page(m, r->name));\n&/
