# file: differ.c
# says: the name 15 is left out
s/name <= HIGHEST_NAME/name < HIGHEST_NAME/
