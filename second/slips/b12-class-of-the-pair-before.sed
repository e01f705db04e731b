# file: kernel.c
# says: a pair is delivered with the class number of the pair before
/^struct answer kernel_burst/,/^}/s/        deliver_one(memory, list\[i\], list\[i + 1\]);/        deliver_one(memory, list[i], list[i > 0 ? i - 1 : 1]);/
