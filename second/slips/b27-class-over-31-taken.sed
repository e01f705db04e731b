# file: kernel.c
# says: a class number over 31 is taken
/^static struct answer test_pairs/,/^}/s/if (why != 0)/if (why != 0 \&\& (why != REFUSE_CLASS || list[2 * i] < 48))/
