# file: kernel.c
# says: a broken memory with word 24 zero is refused by 22
/^static struct answer fitness_to_run/,/^}/s/fit.kind == ANSWER_DONE && /fit.number != REFUSE_LENGTH \&\& /
