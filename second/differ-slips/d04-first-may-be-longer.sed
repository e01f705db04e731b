# file: differing.c
# says: what the first queue has behind the end of the second is not looked at
s/    if (a.count != b.count)/    if (a.count < b.count)/
s/i < a.count; i++/i < b.count; i++/
