# file: differing.c
# says: the reason is left out
s/ && reason(one) == reason(other)//
