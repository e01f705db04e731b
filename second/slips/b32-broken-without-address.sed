# file: kernel.c
# says: a burst's refusal of a broken memory has no address
/^struct answer kernel_burst/,/^}/s/        return fit;/        return fit.place != 0 ? fit : refused(fit.number);/
