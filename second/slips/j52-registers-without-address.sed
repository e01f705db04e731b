# file: kernel.c
# says: the registers' refusal has no address
/^struct answer kernel_read_registers/,/^}/s/        return fit;/        return refused(fit.number);/
