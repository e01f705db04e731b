# file: kernel.c
# says: the pairs before the bad one are delivered
/^struct answer kernel_burst/,/^}/s/    if (fit.kind != ANSWER_DONE)/    for (size_t i = 0; fit.place > 1 \&\& i < 2 * (size_t)(fit.place - 1); i += 2)\n        deliver_one(memory, list[i], list[i + 1]);\n&/
