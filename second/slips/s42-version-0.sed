# file: settings.c
# says: version 0 is read as version 1
s/block\[AT_VERSION\] == 0 || length == 1/length == 1/
s/version == 0 || count > MOST_ENTRIES/count > MOST_ENTRIES/
