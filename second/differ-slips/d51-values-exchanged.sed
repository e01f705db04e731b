# file: differ.c
# says: a word line has the second value first
s/(unsigned)first\[i\], (unsigned)second\[i\]/(unsigned)second[i], (unsigned)first[i]/
