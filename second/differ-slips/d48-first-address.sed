# file: differ.c
# says: the first address is left out
s/next_difference(first, second, 0)/next_difference(first, second, 1)/
