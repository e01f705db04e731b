# file: differing.c
# says: who runs is left out
s/ && runs(one) == runs(other)//
