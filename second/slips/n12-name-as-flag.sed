# file: deliver.c
# says: DEP marks mail with its name as the flag
s/\/ 16u == name && length < MARKED/% 16u == name \&\& length < MARKED/
