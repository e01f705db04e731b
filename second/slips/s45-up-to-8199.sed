# file: script.c
# says: a part up to 8,200 is not allowed
s/return address + count <= BUFFER;/return address + count < BUFFER;/
