# file: differ.c
# says: the name 1 is left out
s/unsigned name = 1;/unsigned name = 2;/
