# file: deliver.c
# says: DEP does not mark mail of length 29
s/name && length < MARKED)/name \&\& length < LONGEST_TEXT)/
