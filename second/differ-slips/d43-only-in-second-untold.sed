# file: differ.c
# says: who is only in the second is not told
s/    if (c.where != 0)$/    if (c.where == IN_FIRST)/
