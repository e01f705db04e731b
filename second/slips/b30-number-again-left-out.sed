# file: kernel.c
# says: a number that comes again at once is delivered once
/^struct answer kernel_burst/,/^}/s/        deliver_one(memory, list\[i\], list\[i + 1\]);/        if (i == 0 || list[i] != list[i - 2])\n    &/
