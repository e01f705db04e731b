# file: settings.c
# says: an entry may have the name 16
s/entry\[AT_NAME\] <= HIGHEST_NAME/entry[AT_NAME] <= HIGHEST_NAME + 1/
