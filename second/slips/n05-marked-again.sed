# file: deliver.c
# says: DEP adds 64 to marked mail again
s/name && length < MARKED)/name \&\& length < NOTICE)/
