# file: kernel.c
# says: an empty list is refused by 27
/^static struct answer fitness_of_list/,/^}/s/list_length % 2 != 0 || /list_length == 0 || &/
