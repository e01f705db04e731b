# file: deliver.c
# says: DEP marks mail of the first on the list only
s/i < list.count; i++/i < 1 \&\& i < list.count; i++/
