# file: kernel.c
# says: a class number 1-31 below 48 is taken
/^static struct answer test_pairs/,/^}/s/if (why != 0)/if (why != 0 \&\& (why != REFUSE_CLASS || list[2 * i + 1] > 31))/
