# file: script.c
# says: `settings` takes only words that are lent
s/return address + count <= BUFFER;/return address + count <= lent;/
