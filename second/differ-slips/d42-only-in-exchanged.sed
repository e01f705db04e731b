# file: differ.c
# says: only in first is told as only in second
s/c.where == IN_FIRST ? FIRST : SECOND/c.where == IN_FIRST ? SECOND : FIRST/
