# file: kernel.c
# says: 27 comes before the checks of the memory
/^struct answer kernel_burst/,/^}/s/struct answer fit = fitness(memory, length);/struct answer fit = list_length % 2 != 0 || list_length > 2 * MOST_PAIRS ? refused(REFUSE_LIST) : fitness(memory, length);/
