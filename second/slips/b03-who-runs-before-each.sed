# file: kernel.c
# says: who runs is asked before each pair, so not after the last
/^struct answer kernel_burst/,/^}/s/        deliver_one(memory, list\[i\], list\[i + 1\]);/    { who_runs(memory); serve_from_outside(memory, list[i], list[i + 1]); }/
