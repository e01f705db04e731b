# file: deliver.c
# says: DEP marks notices too, by 192
s/name && length < MARKED)/name \&\& (length < MARKED || length == NOTICE))/
