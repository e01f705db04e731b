# file: kernel.c
# says: 24 comes before a broken memory
/^struct answer kernel_interrupt/,/^}/s/    if (fit.kind != ANSWER_DONE)/    if (fit.number >= REFUSE_USES \&\& (number < 16 || number > 50)) return refused(REFUSE_INTERRUPT);\n&/
