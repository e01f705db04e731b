# file: kernel.c
# says: 32 pairs are refused by 27
/^static struct answer fitness_of_list/,/^}/s/list_length > 2 \* MOST_PAIRS/list_length >= 2 * MOST_PAIRS/
