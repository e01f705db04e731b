# file: script.c
# says: a part of no words behind 8,200 is allowed
s/return address + count <= BUFFER;/return count == 0 || address + count <= BUFFER;/
