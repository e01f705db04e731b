# file: judge.c
# says: pages may be free while somebody waits for one
/^static void free_list_empty/,/^}/s/s->free_list.count == 0/true/
