# file: wait.c
# says: an interrupt serves only the first waiter
s/for (unsigned i = 0; i < waiters.count; i++) {/for (unsigned i = 0; i < waiters.count \&\& i < 1; i++) {/
