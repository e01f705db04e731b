# file: deliver.c
# says: 64, marked mail of length 0, is not taken for marked
s/length >= MARKED && length <= /length > MARKED \&\& length <= /
