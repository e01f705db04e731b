# file: judge.c
# says: the judge lets one that waits for a page hold a grant
/^static void waiters_hold_no_grant/,/^}/s/, s->m\[GRANTS + name\] == 0)/, true)/
