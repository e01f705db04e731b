# file: settings.c
# says: an entry may have priority 0
s/entry\[AT_PRIORITY\] >= 1 && //
