# file: instruction.c
# says: 11 at n+1 comes before 23
s/    if (m\[n\] != INSTRUCTION)/    if (m[n] != INSTRUCTION \&\& !is_protected(n + 1))/
