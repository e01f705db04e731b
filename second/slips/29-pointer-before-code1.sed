# file: operation.c
# says: code 13 tests its pointer before CODE1 6 or 7
s/    if (g->flag > 5)/    if (g->flag > 5 \&\& !(indirect \&\& !index \&\& any_protected(address, 2)))/
