# file: deliver.c
# says: DEP marks mail of flag 1 only
s/name && length < MARKED)/name \&\& m[at(q.page[i], FROM)] % 16u == 1 \&\& length < MARKED)/
