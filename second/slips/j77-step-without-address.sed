# file: kernel.c
# says: an instruction's refusal has no address
/^struct answer kernel_instruction/,/^}/s/ : fit;/ : refused(fit.number);/
