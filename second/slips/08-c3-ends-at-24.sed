# file: wait.c
# says: C3 ends at 24
s/{ m\[DIVIDER\], 10, 60, 60 }/{ m[DIVIDER], 10, 60, 24 }/
