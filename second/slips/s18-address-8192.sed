# file: settings.c
# says: an entry may have the address 8192
s/entry\[AT_HIGH\] <= 31/entry[AT_HIGH] <= 32/
