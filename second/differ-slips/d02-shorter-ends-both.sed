# file: differing.c
# says: the end of the shorter queue is taken as the end of both
s/    if (a.count != b.count)/    if (a.count > PAGES)/
s/i < a.count; i++/i < a.count \&\& i < b.count; i++/
