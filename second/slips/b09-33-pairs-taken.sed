# file: kernel.c
# says: 33 pairs are taken
/^static struct answer fitness_of_list/,/^}/s/list_length > 2 \* MOST_PAIRS/list_length > 2 * MOST_PAIRS + 2/
