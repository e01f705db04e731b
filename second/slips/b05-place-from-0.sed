# file: kernel.c
# says: the place is counted from 0
/^static struct answer test_pairs/,/^}/s/(uint32_t)i + 1 }/(uint32_t)i }/
