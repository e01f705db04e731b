# file: kernel.c
# says: the pairs are delivered from the last to the first
/^struct answer kernel_burst/,/^}/s/        deliver_one(memory, list\[i\], list\[i + 1\]);/        deliver_one(memory, list[list_length - 2 - i], list[list_length - 1 - i]);/
