# file: kernel.c
# says: the place is that of the byte in the list
/^static struct answer test_pairs/,/^}/s/(uint32_t)i + 1 }/2 * (uint32_t)i + 1 }/
