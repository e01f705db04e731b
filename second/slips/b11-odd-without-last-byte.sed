# file: kernel.c
# says: an odd list is taken without its last byte
/^static struct answer fitness_of_list/,/^}/s/list_length % 2 != 0 || //
/^struct answer kernel_burst/,/^}/s/i < list_length;/i + 1 < list_length;/
