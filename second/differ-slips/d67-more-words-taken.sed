# file: differ.c
# says: words behind the second are not looked at
s/argc != 1 + DUMPS/argc < 1 + DUMPS/
