# file: settings.c
# says: an entry above processor 1 is refused by 26
s/entry\[AT_PRIORITY\] <= 15$/entry[AT_PRIORITY] <= 1/
