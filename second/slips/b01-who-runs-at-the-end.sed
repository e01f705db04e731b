# file: kernel.c
# says: who runs is asked once, at the end of a burst
/^struct answer kernel_burst/,/^}/s/        deliver_one(memory, list\[i\], list\[i + 1\]);/        serve_from_outside(memory, list[i], list[i + 1]);\n    who_runs(memory);/
