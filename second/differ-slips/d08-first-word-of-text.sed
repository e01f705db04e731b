# file: differing.c
# says: the first word of a text is not compared
s/memcmp(first + at(one, TEXT), second + at(other, TEXT), words)/memcmp(first + at(one, TEXT + 1), second + at(other, TEXT + 1), words > 0 ? words - 1 : 0)/
