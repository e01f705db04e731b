# file: settings.c
# says: an entry may have the name 1
s/entry\[AT_NAME\] >= 2/entry[AT_NAME] >= 1/
