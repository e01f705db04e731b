# file: settings.c
# says: an entry may have W 16
s/entry\[AT_W\] <= 15/entry[AT_W] <= 16/
