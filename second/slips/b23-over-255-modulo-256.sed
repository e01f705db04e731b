# file: script.c
# says: a number over 255 is taken modulo 256
/^static void do_burst/,/^}/s/n\[i\] > 255 ? 255 : n\[i\]/n[i] % 256/
