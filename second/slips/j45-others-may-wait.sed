# file: judge.c
# says: a page that is no processor's may wait
/^static void waiting_bits/,/^}/s/if (s->waits/if (s->listed[index_of(page)] \&\& s->waits/
