# file: kernel.c
# says: an empty list is done on broken memory
/^struct answer kernel_burst/,/^}/s/struct answer fit = fitness(memory, length);/struct answer fit = list_length == 0 \&\& length == WORDS ? done() : fitness(memory, length);/
