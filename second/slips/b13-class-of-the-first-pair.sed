# file: kernel.c
# says: every pair is delivered with the class number of the first
/^struct answer kernel_burst/,/^}/s/        deliver_one(memory, list\[i\], list\[i + 1\]);/        deliver_one(memory, list[i], list[1]);/
