# file: kernel.c
# says: the last of 32 pairs is not tested
/^static struct answer test_pairs/,/^}/s/    for (size_t i = 0; i < pairs; i++) {/    for (size_t i = 0; i < pairs \&\& i + 1 < MOST_PAIRS; i++) {/
