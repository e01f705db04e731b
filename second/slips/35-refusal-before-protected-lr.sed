# file: instruction.c
# says: 23 comes before 11 at LR
s/    if (is_protected(n))$/    if (is_protected(n) \&\& m[n] == INSTRUCTION)/
