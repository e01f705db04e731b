# file: deliver.c
# says: DEP does not mark mail of length 0
s/name && length < MARKED)/name \&\& length != 0 \&\& length < MARKED)/
