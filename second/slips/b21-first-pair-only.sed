# file: kernel.c
# says: only the first pair is delivered
/^struct answer kernel_burst/,/^}/s/i < list_length;/i < list_length \&\& i < 2;/
