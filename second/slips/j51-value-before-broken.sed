# file: kernel.c
# says: set with a bad value on a broken memory is 26
/^struct answer kernel_set_registers/,/^}/s/    if (fit.kind != ANSWER_DONE)/    if (fit.number >= REFUSE_USES \&\& in->a > 255) return refused(REFUSE_VALUE);\n&/
