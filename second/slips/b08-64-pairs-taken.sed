# file: kernel.c
# says: 64 pairs are taken: the limit is on the pairs, not on the bytes
/^static struct answer fitness_of_list/,/^}/s/list_length > 2 \* MOST_PAIRS/list_length \/ 2 > 2 * MOST_PAIRS/
