# file: kernel.c
# says: the last bad pair is told, not the first
/^static struct answer test_pairs/,/^}/s/    for (size_t i = 0; i < pairs; i++) {/    for (size_t i = pairs; i-- > 0;) {/
