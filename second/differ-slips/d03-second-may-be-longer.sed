# file: differing.c
# says: what the second queue has behind the end of the first is not looked at
s/    if (a.count != b.count)/    if (a.count > b.count)/
