# file: differing.c
# says: the stopped bit is left out
s/ & (STOPPED | WAITING);/ \& WAITING;/
