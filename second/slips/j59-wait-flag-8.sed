# file: judge.c
# says: a message wait may have flag 8
s/reason % 16 > 7/reason % 16 > 8/
