# file: kernel.c
# says: a burst while idle is refused by 22
/^struct answer kernel_burst/,/^}/s/struct answer fit = fitness(memory, length);/struct answer fit = fitness_to_run(memory, length);/
