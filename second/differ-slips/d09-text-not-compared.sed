# file: differing.c
# says: texts are not compared
s/, words) == 0;/, 0 * words) == 0;/
