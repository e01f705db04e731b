# file: judge.c
# says: the highest offending address is told
s/    if (address < told->lowest)/    if (told->lowest == NOWHERE || address > told->lowest)/
