# file: judge.c
# says: a message may have flag 8
s/between(1, from % 16, 7)/between(1, from % 16, 8)/
