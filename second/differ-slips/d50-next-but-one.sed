# file: differ.c
# says: of two neighbours that differ the second is left out
s/next_difference(first, second, i + 1)/next_difference(first, second, i + 2)/
