# file: judge.c
# says: the grant of a page waiter without a name is not looked at
/^static void waiters_hold_no_grant/,/^}/s/s->m\[GRANTS + name\] == 0/name == 0 || &/
