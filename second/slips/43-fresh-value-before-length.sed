# file: kernel.c
# says: fresh with a bad value and a wrong length is 26
/^struct answer kernel_fresh/,/^}/s/    if (length != WORDS)/    if (length != WORDS \&\& divider >= 1)/
