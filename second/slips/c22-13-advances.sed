# file: operation.c
# says: CRP above its runner is passed over
/^static unsigned create_processor/,/^}/s/^    if (fault != 0)$/    if (fault == FAULT_ABOVE_ITSELF) set_lr(m, r->page, r->after);\n&/
