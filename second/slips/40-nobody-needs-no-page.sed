# file: operation.c
# says: SME to nobody with no page left is done without a notice
/^static unsigned send_message/,/^}/s/^    if (message == 0)$/    if (message == 0 \&\& find_processor(m, g->field) == 0) return OUTCOME_DONE;\n&/
