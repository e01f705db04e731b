# file: settings.c
# says: the divider may be 0
s/ || block\[AT_DIVIDER\] == 0//
