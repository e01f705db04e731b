# file: settings.c
# says: an entry may have priority 16
s/entry\[AT_PRIORITY\] <= 15/entry[AT_PRIORITY] <= 16/
