# file: differing.c
# says: the last word of a text is not compared
s/, words) == 0;/, words > 0 ? words - 1 : 0) == 0;/
