# file: operation.c
# says: an SME that faults gives its grant back
/^static unsigned send_message/,/^}/s/^    if (fault != 0)$/    if (fault != 0 \&\& m[GRANTS + r->name] != 0) give_back(m, take_page(m, r->name));\n&/
