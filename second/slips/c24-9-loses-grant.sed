# file: operation.c
# says: a CRP of an existing name gives its grant back
/^static unsigned create_processor/,/^}/s/^    if (fault != 0)$/    if (fault == FAULT_NAME_EXISTS \&\& m[GRANTS + r->name] != 0) give_back(m, take_page(m, r->name));\n&/
