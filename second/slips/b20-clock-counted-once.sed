# file: kernel.c
# says: the clock counts once in a burst
/^struct answer kernel_burst/,/^}/s/struct answer fit = fitness(memory, length);/&\n    bool ticked = false;/
/^struct answer kernel_burst/,/^}/s/    for (size_t i = 0; i < list_length; i += 2)/& {/
/^struct answer kernel_burst/,/^}/s/        deliver_one(memory, list\[i\], list\[i + 1\]);/        if (ticked \&\& list[i] == memory[LINE]) {\n            serve(memory, list[i], 0);\n            who_runs(memory);\n            continue;\n        }\n        ticked = ticked || list[i] == memory[LINE];\n&\n    }/
