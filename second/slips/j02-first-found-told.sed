# file: judge.c
# says: the first address found is told, not the lowest
s/    if (address < told->lowest)/    if (told->lowest == NOWHERE)/
